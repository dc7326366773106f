/* Each job takes eight soundings of the depth, and puts out the least of them and their mean. */
int sounding[8];
int least;
int mean;

PREDICTABLE(3000) REGION(sounding, 0, 7) REGION(least, 0, 0) REGION(mean, 0, 0)
void judge(void) {
  int i = 0;
  int sum = 0;
  least = sounding[0];
  for (i = 0; i < 8; i++) {
    sum += sounding[i];
    if (sounding[i] < least) { least = sounding[i]; }
  }
  mean = sum >> 3;
}

void job(void) {
  int i = 0;
  int x = 0;
  for (i = 0; i < 8; i++) { x = in(); sounding[i] = x; }
  judge();
  out(least);
  out(mean);
}
