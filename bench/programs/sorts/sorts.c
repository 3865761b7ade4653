#include "../common.h"
static unsigned char in[64]; static int v[64];
NI void insertion(int n) { for (int i = 1; i < n; i++) { int x = v[i], j = i; while (j > 0 && v[j-1] > x) { v[j] = v[j-1]; j--; } v[j] = x; } }
NI void bubble(int n) { for (int i = 0; i < n - 1; i++) for (int j = 0; j < n - 1 - i; j++) if (v[j] > v[j+1]) { int t = v[j]; v[j] = v[j+1]; v[j+1] = t; } }
NI void shell(int n) { for (int gap = 32; gap > 0; gap /= 2) for (int i = gap; i < n; i++) { int x = v[i], j = i; for (; j >= gap && v[j-gap] > x; j -= gap) v[j] = v[j-gap]; v[j] = x; } }
NI int bisect(int n, int x) { int lo = 0, hi = n; while (lo < hi) { int m = (lo + hi) / 2; if (v[m] < x) lo = m + 1; else hi = m; } return lo; }
__attribute__((noreturn)) void job(void) { int n = read_bytes(in, 64); if (n < 0) n = 0; for (int i = 0; i < n; i++) v[i] = in[i]; insertion(n); bubble(n); shell(n); in[0] = bisect(n, 77); for (int i = 1; i < n; i++) in[i] = v[i]; write_bytes(in, 64); leave(0); }
