/* Each job looks at four readings of a slow quantity and puts out the greatest one, and an alarm where it is past 900. */
int reading[4];
int greatest;

PREDICTABLE(4000) REGION(reading, 0, 3) REGION(greatest, 0, 0)
void scan(void) {
  int i = 0;
  greatest = reading[0];
  for (i = 1; i < 4; i++) {
    if (reading[i] > greatest) { greatest = reading[i]; }
  }
}

void job(void) {
  int i = 0;
  int x = 0;
  for (i = 0; i < 4; i++) { x = in(); reading[i] = x; }
  scan();
  out(greatest);
  if (greatest > 900) { out(1); } else { out(0); }
}
