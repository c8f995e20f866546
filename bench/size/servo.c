#include "port.h"
static short wanted, place, error, sum, speed, history[8];
static byte next;

static inline word inw(word port) { word v; __asm__ volatile("inw %1, %0" : "=a"(v) : "Nd"(port)); return v; }
static inline void outw(word port, word v) { __asm__ volatile("outw %0, %1" : : "a"(v), "Nd"(port)); }

NOINLINE short smooth(short value) {
  short total = 0;
  history[next] = value;
  next = (next + 1) % 8;
  for (short k = 0; k <= 7; k++) total += history[k] / 8;
  return total;
}

NOINLINE short limited(short value, short most) {
  if (value > most) return most;
  if (value < -most) return -most;
  return value;
}

void main_program(void) {
  next = 0;
  sum = 0;
  speed = 0;
  for (;;) {
    wanted = inw(0x320);
    place = smooth(inw(0x322));
    error = limited(wanted - place, 1000);
    if (error >= -3 && error <= 3) error = 0;
    sum = limited(sum + error / 16, 4000);
    speed += limited(error * 3 + sum / 8 - speed, 50);
    outw(0x324, speed);
  }
}
