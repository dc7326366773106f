/* Smooths a block of sound: each sample with those beside it. */
int sample[34];
int smoothed[32];

PREDICTABLE(8000) REGION(sample, 0, 33) REGION(smoothed, 0, 31)
void smooth(void) {
  int i = 0;
  int sum = 0;
  for (i = 0; i < 32; i++) {
    sum = sample[i] + sample[i + 1] + sample[i + 1] + sample[i + 2];
    smoothed[i] = sum >> 2;
  }
}

void job(void) {
  int i = 0;
  int x = 0;
  int most = 0;
  sample[0] = sample[32];
  sample[1] = sample[33];
  for (i = 2; i < 34; i++) { x = in(); if (x > 32767) { x = 32767; } if (x < -32768) { x = -32768; } sample[i] = x; }
  smooth();
  for (i = 0; i < 32; i++) { if (smoothed[i] > most) { most = smoothed[i]; } }
  out(most);
}
