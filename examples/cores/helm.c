/* Each job turns a rudder towards the wanted angle, by 20 at most, and puts its angle out. */
int angle;

PREDICTABLE(800) REGION(angle, 0, 0)
void turn(int wanted RANGE(-400, 400)) {
  int step = wanted - angle;
  if (step > 20) { step = 20; }
  if (step < -20) { step = -20; }
  angle += step;
}

void job(void) {
  int wanted = 0;
  wanted = in();
  if (wanted > 400) { wanted = 400; }
  if (wanted < -400) { wanted = -400; }
  turn(wanted);
  out(angle);
}
