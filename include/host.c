/* Runs the jobs of a task on the computer that compiles it, with the input words of a run file:

       gcc -std=c99 -O1 -fwrapv -DPREM_HOST -include include/prem.h -c -o task.o task.c
       gcc -std=c99 -o task include/host.c task.o
       ./task RUN NAME JOBS

   It takes the words of the lines `in NAME V ..` of the file RUN, calls `job` JOBS times, and prints a line `out V` for each
   word that is put out, as `prem source` does. Status 1: the file can't be read; 2: the words aren't as above. */
#include <stdio.h>
#include <stdlib.h>
#include <string.h>

int in(void);
void out(unsigned word);
void job(void);

enum { MOST = 100000 };

static unsigned words[MOST];
static int count, taken;

int in(void) {
  return taken < count ? (int)words[taken++] : 0;
}

void out(unsigned word) {
  printf("out %u\n", word);
}

/* The next word of the text, which is cut off from it, or null. */
static char *next_word(char **text) {
  char *word = *text + strspn(*text, " \t\r\n");
  char *end = word + strcspn(word, " \t\r\n");
  if (word == end) return NULL;
  *text = *end == '\0' ? end : end + 1;
  *end = '\0';
  return word;
}

static void take_line(char *line, const char *name) {
  char *word = next_word(&line);
  if (word == NULL || strcmp(word, "in") != 0) return;
  word = next_word(&line);
  if (word == NULL || strcmp(word, name) != 0) return;
  while ((word = next_word(&line)) != NULL && count < MOST) words[count++] = (unsigned)strtoll(word, NULL, 10);
}

/* All bytes of the file and a null behind them, or null. */
static char *text_of(const char *path) {
  FILE *file = fopen(path, "rb");
  char *text = malloc(4194305);
  size_t length;
  if (file == NULL || text == NULL) return NULL;
  length = fread(text, 1, 4194304, file);
  text[length] = '\0';
  fclose(file);
  return text;
}

int main(int argc, char **argv) {
  char *text, *line, *next;
  long done, jobs;
  if (argc != 4) {
    fputs("usage: task RUN NAME JOBS\n", stderr);
    return 2;
  }
  text = text_of(argv[1]);
  if (text == NULL) {
    perror(argv[1]);
    return 1;
  }
  for (line = text; line != NULL; line = next) {
    next = strchr(line, '\n');
    if (next != NULL) *next++ = '\0';
    take_line(line, argv[2]);
  }
  free(text);
  jobs = strtol(argv[3], NULL, 10);
  for (done = 0; done < jobs; done++) job();
  return 0;
}
