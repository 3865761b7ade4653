#include "../common.h"
static unsigned char in[256], out[256];
struct field { unsigned char kind, length; const unsigned char *data; };
NI int parse(const unsigned char *p, int n, struct field *f, int most) { int k = 0, at = 0; while (k < most && at + 2 <= n) { int l = p[at + 1]; if (at + 2 + l > n) break; f[k].kind = p[at]; f[k].length = l; f[k].data = p + at + 2; k++; at += 2 + l; } return k; }
NI unsigned check(const unsigned char *p, int n) { unsigned a = 1, b = 0; for (int i = 0; i < n; i++) { a = (a + p[i]) % 65521; b = (b + a) % 65521; } return b << 16 | a; }
__attribute__((noreturn)) void job(void) { struct field f[8]; int n = read_bytes(in, 256); int k = parse(in, n, f, 8); for (int i = 0; i < k; i++) { unsigned c = check(f[i].data, f[i].length); out[4*i] = c; out[4*i+1] = c >> 8; out[4*i+2] = c >> 16; out[4*i+3] = c >> 24; } write_bytes(out, 64); leave(0); }
