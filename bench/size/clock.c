#include "port.h"
/* The screen's segment is in ES, as PL/M's code has it. */
static byte ticks, changed = 1, time_of_day[3];
static const byte limit[3] = {60, 60, 24};

INTERRUPT void tick(void *frame) {
  (void)frame;
  ticks++;
  if (ticks == 18) {
    byte k = 0;
    ticks = 0;
    changed = 1;
    while (k < 3) {
      time_of_day[k]++;
      if (time_of_day[k] < limit[k]) k = 3;
      else {
        time_of_day[k] = 0;
        k++;
      }
    }
  }
  out(0x20, 0x20);
}

static inline void put_cell(word offset, byte value) { *(volatile byte __seg_fs *)(0x8000 + (unsigned)offset) = value; }

NOINLINE void show(byte column, byte sign) {
  put_cell(2 * column, sign);
  put_cell(2 * column + 1, 0x1E);
}

NOINLINE void show_pair(byte column, byte value) {
  show(column, value / 10 + '0');
  show(column + 1, value % 10 + '0');
}

void main_program(void) {
  for (word i = 0; i < 2000; i++) {
    put_cell(2 * i, ' ');
    put_cell(2 * i + 1, 7);
  }
  out(0x20, 0x13); out(0x21, 8); out(0x21, 1); out(0x21, 0xFE);
  out(0x43, 0x36); out(0x40, 0); out(0x40, 0);
  for (;;) {
    disable();
    if (*(volatile byte *)&changed) {
      changed = 0;
      enable();
      show_pair(72, time_of_day[2]);
      show(74, ':');
      show_pair(75, time_of_day[1]);
      show(77, ':');
      show_pair(78, time_of_day[0]);
    } else halt();
  }
}
