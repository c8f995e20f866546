#include "port.h"
#define COUNT 64
static word sample[COUNT], sum, crc;

static inline word inw(word port) { word v; __asm__ volatile("inw %1, %0" : "=a"(v) : "Nd"(port)); return v; }
static inline void outw(word port, word v) { __asm__ volatile("outw %0, %1" : : "a"(v), "Nd"(port)); }

NOINLINE void collect(void) {
  for (byte i = 0; i < COUNT; i++) {
    while ((in(0x301) & 1) == 0) {}
    sample[i] = inw(0x302);
  }
}

NOINLINE void sort(void) {
  for (byte i = 1; i < COUNT; i++) {
    word kept = sample[i];
    byte j = i;
    while (j > 0) {
      if (sample[j - 1] > kept) {
        sample[j] = sample[j - 1];
        j--;
      } else {
        sample[j] = kept;
        kept = sample[0];
        j = 0;
      }
    }
    if (sample[0] > kept) sample[0] = kept;
  }
}

NOINLINE void add_to_crc(byte value) {
  crc ^= (word)value << 8;
  for (byte bit = 1; bit <= 8; bit++) {
    if ((crc & 0x8000) != 0) crc = (crc << 1) ^ 0x1021;
    else crc <<= 1;
  }
}

NOINLINE void send(void) {
  sum = 0;
  crc = 0xFFFF;
  for (byte i = 0; i < COUNT; i++) {
    sum += sample[i];
    add_to_crc(sample[i] >> 8);
    add_to_crc(sample[i]);
    outw(0x304, sample[i]);
  }
  outw(0x304, sum / COUNT);
  outw(0x304, crc);
}

void main_program(void) {
  for (;;) {
    collect();
    sort();
    send();
  }
}
