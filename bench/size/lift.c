#include "port.h"
#define BUTTONS 0x310
#define SENSORS 0x311
#define MOTOR 0x312
#define DOORS 0x313
#define LAMPS 0x314
static byte state, floor_now, waiting, timer, upward;
static const byte mark[4] = {1, 2, 4, 8};

NOINLINE byte is_called(byte number) { return (waiting & mark[number]) != 0; }

NOINLINE byte above(void) {
  byte found = 0, k = floor_now;
  while (k < 3) {
    k++;
    found |= is_called(k);
  }
  return found;
}

NOINLINE byte below(void) {
  byte found = 0, k = floor_now;
  while (k > 0) {
    k--;
    found |= is_called(k);
  }
  return found;
}

void main_program(void) {
  state = floor_now = waiting = timer = upward = 0;
  for (;;) {
    waiting |= in(BUTTONS) & 0x0F;
    out(LAMPS, waiting);
    switch (state) {
    case 0:
      if (is_called(floor_now)) {
        state = 3;
        timer = 100;
        out(DOORS, 1);
      } else {
        byte up = above();
        if (upward & up) state = 1;
        else if (below()) { state = 2; upward = 0; }
        else if (above()) { state = 1; upward = 1; }
      }
      break;
    case 1:
      out(MOTOR, 1);
      if ((in(SENSORS) & 1) != 0) {
        floor_now++;
        byte called = is_called(floor_now), more = above();
        if (called | !more) state = 4;
      }
      break;
    case 2:
      out(MOTOR, 2);
      if ((in(SENSORS) & 1) != 0) {
        floor_now--;
        byte called = is_called(floor_now), more = below();
        if (called | !more) state = 4;
      }
      break;
    case 3:
      waiting &= ~mark[floor_now];
      if ((in(SENSORS) & 2) != 0) timer = 100;
      timer--;
      if (timer == 0) {
        out(DOORS, 0);
        state = 0;
      }
      break;
    case 4:
      out(MOTOR, 0);
      state = 0;
    }
  }
}
