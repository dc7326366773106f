/* A position controller: a proportional and integral law with a limit on both, once a job. */
int sum;
int command;

/* The integral part is held between its limits, so that it can't wind up. */
PREDICTABLE(6000) REGION(sum, 0, 0) REGION(command, 0, 0)
void control(int wanted RANGE(-1000, 1000), int measured RANGE(-1000, 1000)) {
  int error = wanted - measured;
  sum += error;
  if (sum > 8000) { sum = 8000; }
  if (sum < -8000) { sum = -8000; }
  command = (12 * error + sum) / 8;
  if (command > 1000) { command = 1000; }
  if (command < -1000) { command = -1000; }
}

int filtered;

/* The measured position, smoothed by half a step at a time. */
PREDICTABLE(3000) REGION(filtered, 0, 0)
void filter(int measured RANGE(-1000, 1000)) {
  filtered = (filtered + measured) / 2;
  if (filtered > 1000) { filtered = 1000; }
  if (filtered < -1000) { filtered = -1000; }
}

void job(void) {
  int wanted = 0;
  int measured = 0;
  wanted = in();
  measured = in();
  if (wanted > 1000) { wanted = 1000; }
  if (wanted < -1000) { wanted = -1000; }
  if (measured > 1000) { measured = 1000; }
  if (measured < -1000) { measured = -1000; }
  filter(measured);
  measured = filtered;
  if (measured > 1000) { measured = 1000; }
  if (measured < -1000) { measured = -1000; }
  control(wanted, measured);
  out(command);
}
