int a[8];
PREDICTABLE(900) REGION(a, 0, 7) void f(void) { int i = 0; for (i = 0; i < 8; i++) { a[i] = i; } }
void job(void) { f(); out(a[7]); }
