#include "../common.h"
static unsigned char buf[32], in[128], out[128]; static unsigned head, tail;
NI int put(unsigned char c) { unsigned n = (head + 1) & 31; if (n == tail) return 0; buf[head] = c; head = n; return 1; }
NI int get(void) { if (head == tail) return -1; int c = buf[tail]; tail = (tail + 1) & 31; return c; }
__attribute__((noreturn)) void job(void) { int n = read_bytes(in, 128), m = 0; for (int i = 0; i < n; i++) { put(in[i]); if (i & 1) { int c = get(); if (c >= 0) out[m++] = c; } } for (int i = 0; i < 32; i++) { int c = get(); if (c < 0) break; if (m < 128) out[m++] = c; } write_bytes(out, 128); leave(0); }
