/* Puts out each word that comes. */
void job(void) {
  int x = 0;
  x = in();
  out(x);
}
