/* Each job takes a pressure and puts out whether it is past its limit. */
void job(void) {
  int pressure = 0;
  pressure = in();
  if (pressure > 900) { out(1); } else { out(0); }
}
