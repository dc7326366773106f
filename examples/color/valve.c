/* A valve whose opening follows a level. `report` stands between `limited` and `hold`, which calls it. */
int opening;

int limited(int x) {
  if (x > 4000) { x = 4000; }
  if (x < 0) { x = 0; }
  return x;
}

/* Thousands, hundreds, tens and ones. */
void report(int x) {
  int digit = 0;
  BOUNDED(4) while (x >= 1000) { x -= 1000; digit++; }
  out(digit);
  digit = 0;
  BOUNDED(9) while (x >= 100) { x -= 100; digit++; }
  out(digit);
  digit = 0;
  BOUNDED(9) while (x >= 10) { x -= 10; digit++; }
  out(digit);
  out(x);
}

PREDICTABLE(2000) REGION(opening, 0, 0)
void hold(int wanted RANGE(0, 4000), int measured RANGE(0, 4000)) {
  int next = 0;
  next = limited(opening + ((wanted - measured) >> 2));
  opening = next;
}

void job(void) {
  int wanted = 0;
  int measured = 0;
  wanted = in();
  measured = in();
  wanted = limited(wanted);
  measured = limited(measured);
  if (wanted > 4000) { wanted = 4000; }
  if (wanted < 0) { wanted = 0; }
  if (measured > 4000) { measured = 4000; }
  if (measured < 0) { measured = 0; }
  hold(wanted, measured);
  report(opening);
}
