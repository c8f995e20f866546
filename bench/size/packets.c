#include "port.h"
static byte first[32], second[32], count, value;
static byte *current;
static word good;

NOINLINE byte is_sound(byte *block, byte size) {
  byte sum = good;
  for (byte k = 0; k < size; k++) sum += block[k];
  return sum == 0;
}

NOINLINE void copy(byte *from, byte *target, byte many) {
  while (many > 0) {
    *target = *from;
    from++;
    target++;
    many--;
  }
}

void main_program(void) {
  good = 0;
  current = first;
  for (;;) {
    count = 0;
    while (count < 32) {
      while ((in(0x3FD) & 1) == 0) {}
      value = in(0x3F8);
      if (count > 0 || value == 0x7E) {
        current[count] = value;
        count++;
      }
    }
    if (is_sound(current, count)) {
      good++;
      copy(current, second, count);
      out(0x3F8, 6);
    } else out(0x3F8, 0x15);
  }
}
