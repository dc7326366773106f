/* Holds a level: each job takes a reading of the converter and puts the valve's new position out. */
int sum;
int valve;

PREDICTABLE(2000) REGION(sum, 0, 0) REGION(valve, 0, 0)
void hold(int wanted RANGE(0, 4095), int reading RANGE(0, 4095)) {
  int error = wanted - reading;
  sum += error;
  if (sum > 65536) { sum = 65536; }
  if (sum < -65536) { sum = -65536; }
  valve = (error << 3) + (sum >> 4);
  if (valve > 32767) { valve = 32767; }
  if (valve < -32767) { valve = -32767; }
}

void job(void) {
  unsigned wanted = 0u;
  unsigned reading = 0u;
  wanted = in();
  reading = in();
  hold(wanted & 4095u, reading & 4095u);
  out(valve);
}
