/* Each job takes a sample, smooths it, and puts the smoothed value out. */
int state;

PREDICTABLE(2000) REGION(state, 0, 0)
void smooth(int sample RANGE(-32768, 32767)) {
  /* A quarter of the way to the sample. */
  state += (sample * 16 - state) / 4;
}

void job(void) {
  int sample = 0;
  sample = in();
  if (sample < -32768) { sample = -32768; }
  if (sample > 32767) { sample = 32767; }
  smooth(sample);
  out(state / 16);
}
