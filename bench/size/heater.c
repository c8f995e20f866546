#include "port.h"
static word wanted, measured, power, sum_of_errors, error, history[8];
static byte cold, next;

static inline word inw(word port) { word v; __asm__ volatile("inw %1, %0" : "=a"(v) : "Nd"(port)); return v; }
static inline void outw(word port, word v) { __asm__ volatile("outw %0, %1" : : "a"(v), "Nd"(port)); }

NOINLINE word smooth(word value) {
  word total = 0;
  history[next] = value;
  next = (next + 1) % 8;
  for (byte k = 0; k <= 7; k++) total += history[k] >> 3;
  return total;
}

NOINLINE word limited(word value, word most) {
  if (value > most) return most;
  return value;
}

NOINLINE word square_root(word value) {
  word root = 0, bit = 0x80;
  while (bit > 0) {
    if ((word)((root + bit) * (root + bit)) <= value) root += bit;
    bit >>= 1;
  }
  return root;
}

void main_program(void) {
  next = 0;
  sum_of_errors = 0;
  for (;;) {
    wanted = inw(0x320);
    measured = smooth(inw(0x322));
    cold = wanted > measured;
    if (cold) error = wanted - measured;
    else error = measured - wanted;
    error = limited(error, 1000);
    if (cold) sum_of_errors = limited(sum_of_errors + error / 16, 20000);
    else if (sum_of_errors > error / 16) sum_of_errors -= error / 16;
    else sum_of_errors = 0;
    power = sum_of_errors / 4;
    if (cold) power += error * 5;
    outw(0x324, square_root(limited(power, 10000)));
  }
}
