#include "port.h"
static byte ring_bytes[16], head, tail, count, lost;

NOINLINE void store(byte code) {
  if (count == 16) lost++;
  else {
    ring_bytes[head] = code;
    head = (head + 1) & 15;
    count++;
  }
}

NOINLINE byte fetch(void) {
  byte code = ring_bytes[tail];
  tail = (tail + 1) & 15;
  count--;
  return code;
}

NOINLINE void poll(void) {
  byte code = in(0x60);
  if (code != 0) {
    out(0x61, 0x80);
    out(0x61, 0);
    if (code < 0x80) store(code);
  }
}

void main_program(void) {
  out(0x63, 0x99);
  for (;;) {
    poll();
    if (count > 0)
      if ((in(0x379) & 0x80) != 0) {
        out(0x378, fetch());
        out(0x37A, 0x0D);
        out(0x37A, 0x0C);
      }
  }
}
