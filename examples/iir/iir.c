/* A low pass of second order (Butterworth, a tenth of the rate) over a block of 32 samples, in units of 2^-13. */
short sample[32];
int result[32];
int x1;
int x2;
int y1;
int y2;

PREDICTABLE(52000) REGION(sample, 0, 31) REGION(result, 0, 31)
REGION(x1, 0, 0) REGION(x2, 0, 0) REGION(y1, 0, 0) REGION(y2, 0, 0)
void biquad(void) {
  int i = 0;
  int x = 0;
  int y = 0;
  for (i = 0; i < 32; i++) {
    x = sample[i];
    y = (553 * (x + x2) + 1105 * x1 + 9363 * y1 - 3382 * y2) >> 13;
    x2 = x1;
    x1 = x;
    y2 = y1;
    y1 = y;
    result[i] = y;
  }
}

void job(void) {
  int i = 0;
  int x = 0;
  for (i = 0; i < 32; i++) { x = in(); sample[i] = x; }
  biquad();
  for (i = 0; i < 32; i++) { out(result[i]); }
}
