#include "../common.h"
static int a[6][6], b[6][6], c[6][6]; static unsigned char in[72], out[36];
NI void load(int m[6][6], const unsigned char *p) { for (int i = 0; i < 6; i++) for (int j = 0; j < 6; j++) m[i][j] = *p++; }
NI void mul(void) { for (int i = 0; i < 6; i++) for (int j = 0; j < 6; j++) { int s = 0; for (int k = 0; k < 6; k++) s += a[i][k] * b[k][j]; c[i][j] = s; } }
__attribute__((noreturn)) void job(void) { read_bytes(in, 72); load(a, in); load(b, in + 36); mul(); for (int i = 0; i < 36; i++) out[i] = ((int *)c)[i]; write_bytes(out, 36); leave(0); }
