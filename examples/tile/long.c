/* The filter of `fir`, which keeps the core for most of its job. */
short coef[16] = {1, 2, 3, 4, 5, 6, 7, 8, 8, 7, 6, 5, 4, 3, 2, 1};
short sample[80];
int result[64];

PREDICTABLE(408000) REGION(coef, 0, 15) REGION(sample, 0, 79) REGION(result, 0, 63)
void fir(void) {
  int i = 0;
  int j = 0;
  int s = 0;
  for (i = 0; i < 64; i++) {
    s = 0;
    for (j = 0; j < 16; j++) { s += coef[j] * sample[i + j]; }
    result[i] = s;
  }
}

void job(void) {
  int i = 0;
  int x = 0;
  for (i = 0; i < 80; i++) { x = in(); sample[i] = x; }
  fir();
  for (i = 0; i < 64; i++) { out(result[i]); }
}
