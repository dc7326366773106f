/* Looks at the frames of a bus as CAN has them: the checksum of each one's head and data, by the polynomial x^15 + x^14 +
   x^10 + x^8 + x^7 + x^4 + x^3 + 1, has to be the one that came with it. A good frame's identifier is put out, and the number
   of bad ones so far. */
unsigned char data[8];
unsigned check;
int bad;

/* Takes the lowest bits of the word into the checksum, the highest one of them first. */
void take(unsigned word, int bits RANGE(8, 19)) {
  int i = 0;
  unsigned next = 0u;
  for (i = 0; i < bits; i++) {
    next = ((word >> (bits - 1 - i)) ^ (check >> 14)) & 1u;
    check = (check << 1) & 0x7fffu;
    if (next != 0u) { check = check ^ 0x4599u; }
  }
}

/* Start bit, identifier, three control bits of 0, and the length make the 19 bits of the head. */
PREDICTABLE(14000) REGION(data, 0, 7) REGION(check, 0, 0) REGION(bad, 0, 0)
void frame(unsigned identifier RANGE(0, 2047), int length RANGE(0, 8), unsigned wanted RANGE(0, 32767)) {
  int i = 0;
  check = 0u;
  take((identifier << 7) | length, 19);
  for (i = 0; i < length; i++) { take(data[i], 8); }
  if (check != wanted) { bad++; }
}

void job(void) {
  unsigned identifier = 0u;
  int length = 0;
  unsigned wanted = 0u;
  int i = 0;
  int x = 0;
  int before = bad;
  identifier = in();
  identifier = identifier & 2047u;
  length = in();
  if (length < 0) { length = 0; }
  if (length > 8) { length = 8; }
  for (i = 0; i < 8; i++) { x = in(); data[i] = x; }
  wanted = in();
  frame(identifier, length, wanted & 32767u);
  if (bad == before) { out(identifier); }
  out(bad);
}
