/* A speed loop: the middle one of three readings takes single spikes of the sensor out, and a proportional, integral and
   derivative law in sixteenths sets the drive, once a job. */
int newest;
int middle;
int oldest;
int speed;

PREDICTABLE(1400) REGION(newest, 0, 0) REGION(middle, 0, 0) REGION(oldest, 0, 0) REGION(speed, 0, 0)
void filter(int reading RANGE(-4096, 4095)) {
  int low = 0;
  int high = 0;
  oldest = middle;
  middle = newest;
  newest = reading;
  low = newest;
  high = middle;
  if (low > high) { low = middle; high = newest; }
  speed = oldest;
  if (speed < low) { speed = low; }
  if (speed > high) { speed = high; }
}

int sum;
int before;
int drive;

/* The sum is held between limits, so that it can't wind up while the drive is at its own. */
PREDICTABLE(4500) REGION(sum, 0, 0) REGION(before, 0, 0) REGION(drive, 0, 0)
void control(int wanted RANGE(-4096, 4095), int measured RANGE(-4096, 4095)) {
  int error = wanted - measured;
  int change = error - before;
  before = error;
  sum += error;
  if (sum > 65536) { sum = 65536; }
  if (sum < -65536) { sum = -65536; }
  drive = (40 * error + 3 * sum + 24 * change) / 16;
  if (drive > 32767) { drive = 32767; }
  if (drive < -32767) { drive = -32767; }
}

void job(void) {
  int wanted = 0;
  int measured = 0;
  wanted = in();
  measured = in();
  if (wanted > 4095) { wanted = 4095; }
  if (wanted < -4096) { wanted = -4096; }
  if (measured > 4095) { measured = 4095; }
  if (measured < -4096) { measured = -4096; }
  filter(measured);
  measured = speed;
  if (measured > 4095) { measured = 4095; }
  if (measured < -4096) { measured = -4096; }
  control(wanted, measured);
  out(drive);
}
