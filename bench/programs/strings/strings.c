#include "../common.h"
static char in[65], out[64]; static const char *keys[4] = {"get", "set", "del", "list"};
NI int len(const char *s) { int n = 0; while (s[n]) n++; return n; }
NI int same(const char *a, const char *b, int n) { for (int i = 0; i < n; i++) if (a[i] != b[i]) return 0; return 1; }
NI void copy(char *to, const char *from, int n) { while (n-- > 0) *to++ = *from++; }
NI int find(const char *s, int n) { for (int k = 0; k < 4; k++) { int l = len(keys[k]); if (l <= n && same(s, keys[k], l)) return k; } return -1; }
__attribute__((noreturn)) void job(void) { int n = read_bytes((unsigned char *)in, 64); if (n < 0) n = 0; in[n] = 0; int k = find(in, n); if (k >= 0) copy(out, in, n); for (int i = 0, j = n - 1; i < j; i++, j--) { char t = out[i]; out[i] = out[j]; out[j] = t; } write_bytes((unsigned char *)out, 64); leave(0); }
