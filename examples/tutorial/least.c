short weight[16] = {1, 2, 3, 4, 5, 6, 7, 8, 8, 7, 6, 5, 4, 3, 2, 1};
short sample[80];
int result[64];

PREDICTABLE(1)
void filter(void) {
  int i = 0;
  int j = 0;
  int sum = 0;
  for (i = 0; i < 64; i++) {
    sum = 0;
    for (j = 0; j < 16; j++) { sum += weight[j] * sample[i + j]; }
    result[i] = sum;
  }
}

void job(void) {
  int i = 0;
  int x = 0;
  for (i = 0; i < 80; i++) { x = in(); sample[i] = x; }
  filter();
  for (i = 0; i < 64; i++) { out(result[i]); }
}
