/* What makes a task's source C99 for other compilers and for editors: the annotation words of prem vanish, and its two calls
   are declared. A source names no header; give this one by `-include include/prem.h`.

   With PREM_HOST, for a build with host.c, a BOUNDED loop also ends after its number of turns, as it does in the language.
   There `while` stands behind BOUNDED alone. */
#ifndef PREM_H
#define PREM_H

#define PREDICTABLE(cycles)
#define REGION(global, low, high)
#define RANGE(low, high)

#ifdef PREM_HOST
#define BOUNDED(turns) for (unsigned prem_turns = (turns); prem_turns != 0; prem_turns--)
#define while(condition) if (!(condition)) break; else
#else
#define BOUNDED(turns)
#endif

/* The task's next input word, or 0 where its words are used up. */
int in(void);
/* Puts out a word. */
void out(unsigned word);

void job(void);

#endif
