/* One marked function of one store: its interval lasts 491 cycles, and no instruction of it misses the cache. */
int g;

PREDICTABLE(491) REGION(g, 0, 0)
void set(int x RANGE(0, 9)) { g = x; }

void job(void) {
  set(7);
  out(g);
}
