#include "../common.h"
static unsigned char in[64], out[64];
NI int ones(unsigned x) { int n = 0; for (int i = 0; i < 32; i++) n += x >> i & 1; return n; }
NI unsigned turned(unsigned x) { unsigned r = 0; for (int i = 0; i < 32; i++) { r = r << 1 | (x & 1); x >>= 1; } return r; }
NI int top(unsigned x) { int n = 0; while (x) { x >>= 1; n++; } return n; }
NI unsigned gcd(unsigned a, unsigned b) { while (b) { unsigned t = a % b; a = b; b = t; } return a; }
__attribute__((noreturn)) void job(void) { read_bytes(in, 64); for (int i = 0; i < 16; i++) { unsigned x = in[4*i] | in[4*i+1] << 8 | in[4*i+2] << 16 | (unsigned)in[4*i+3] << 24; out[4*i] = ones(x); out[4*i+1] = turned(x); out[4*i+2] = top(x); out[4*i+3] = gcd(x, 12345); } write_bytes(out, 64); leave(0); }
