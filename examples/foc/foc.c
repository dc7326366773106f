/* Field oriented control of a motor: the currents of two phases are turned into the frame of the rotor, two loops set its
   voltages, and these are turned back. Sines are in units of 2^-14, angles in 65536ths of a turn. */
short sine[64] = {
  0, 1606, 3196, 4756, 6270, 7723, 9102, 10394, 11585, 12665, 13623, 14449, 15137, 15679, 16069, 16305,
  16384, 16305, 16069, 15679, 15137, 14449, 13623, 12665, 11585, 10394, 9102, 7723, 6270, 4756, 3196, 1606,
  0, -1606, -3196, -4756, -6270, -7723, -9102, -10394, -11585, -12665, -13623, -14449, -15137, -15679, -16069, -16305,
  -16384, -16305, -16069, -15679, -15137, -14449, -13623, -12665, -11585, -10394, -9102, -7723, -6270, -4756, -3196, -1606};
int wanted;
int sum_d;
int sum_q;
int phase_a;
int phase_b;
int phase_c;

int limited(int x, int most) {
  if (x > most) { x = most; }
  if (x < -most) { x = -most; }
  return x;
}

PREDICTABLE(12000) REGION(sine, 0, 63) REGION(wanted, 0, 0) REGION(sum_d, 0, 0) REGION(sum_q, 0, 0)
REGION(phase_a, 0, 0) REGION(phase_b, 0, 0) REGION(phase_c, 0, 0)
void turn(int a RANGE(-2048, 2047), int b RANGE(-2048, 2047), int angle RANGE(0, 65535)) {
  int s = sine[(angle >> 10) & 63];
  int c = sine[((angle >> 10) + 16) & 63];
  /* 9459 is the inverse root of 3. */
  int across = ((a + 2 * b) * 9459) >> 14;
  int d = (a * c + across * s) >> 14;
  int q = (across * c - a * s) >> 14;
  int volts_d = 0;
  int volts_q = 0;
  volts_d = limited(sum_d - d, 100000);
  sum_d = volts_d;
  volts_q = limited(sum_q + wanted - q, 100000);
  sum_q = volts_q;
  volts_d = limited((sum_d >> 4) - 6 * d, 8191);
  volts_q = limited((sum_q >> 4) + 6 * (wanted - q), 8191);
  phase_a = (volts_d * c - volts_q * s) >> 14;
  /* 14189 is half the root of 3. */
  across = (((volts_d * s + volts_q * c) >> 14) * 14189) >> 14;
  phase_b = across - phase_a / 2;
  phase_c = 0 - across - phase_a / 2;
}

void job(void) {
  int a = 0;
  int b = 0;
  int angle = 0;
  wanted = 300;
  a = in();
  b = in();
  angle = in();
  if (a > 2047) { a = 2047; }
  if (a < -2048) { a = -2048; }
  if (b > 2047) { b = 2047; }
  if (b < -2048) { b = -2048; }
  angle = angle & 65535;
  turn(a, b, angle);
  out(phase_a);
  out(phase_b);
  out(phase_c);
}
