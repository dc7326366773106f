int g;
PREDICTABLE(490) REGION(g, 0, 0) void set(int x RANGE(0, 9)) { g = x; }
void job(void) { set(9); out(g); }
