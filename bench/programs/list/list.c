#include "../common.h"
struct node { short value; short next; }; static struct node pool[32]; static unsigned char in[32], out[32];
NI int build(int n) { int head = -1; for (int i = 0; i < n; i++) { pool[i].value = in[i]; pool[i].next = head; head = i; } return head; }
NI int total(int head) { int s = 0; for (int k = 0; k < 32 && head >= 0; k++) { s += pool[head & 31].value; head = pool[head & 31].next; } return s; }
NI int reverse(int head) { int r = -1; while (head >= 0) { int n = pool[head & 31].next; pool[head & 31].next = r; r = head; head = n; } return r; }
__attribute__((noreturn)) void job(void) { int n = read_bytes(in, 32); int h = build(n); out[0] = total(h); h = reverse(h); out[1] = total(h); write_bytes(out, 32); leave(0); }
