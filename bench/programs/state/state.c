#include "../common.h"
static unsigned char in[200], out[200];
NI int encode(const unsigned char *p, int n, unsigned char *q) { int m = 0; for (int i = 0; i < n; ) { int run = 1; while (i + run < n && run < 255 && p[i + run] == p[i]) run++; if (m + 2 > 200) break; q[m++] = run; q[m++] = p[i]; i += run; } return m; }
NI void hex(unsigned x, unsigned char *q) { for (int k = 7; k >= 0; k--) { q[k] = "0123456789abcdef"[x & 15]; x >>= 4; } }
NI int digits(unsigned x, unsigned char *q) { unsigned char t[10]; int n = 0; do { t[n++] = '0' + x % 10; x /= 10; } while (x && n < 10); for (int k = 0; k < n; k++) q[k] = t[n - 1 - k]; return n; }
__attribute__((noreturn)) void job(void) { int n = read_bytes(in, 200); int m = encode(in, n, out); hex(m, out); digits(m * 12345u, out + 16); write_bytes(out, 200); leave(0); }
