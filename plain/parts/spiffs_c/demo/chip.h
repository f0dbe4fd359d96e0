/* A chip of 64 KiB in memory, of which the power goes off inside a program or an erase. */
#ifndef DEMO_CHIP_H
#define DEMO_CHIP_H

#include <stdint.h>
#include <string.h>

#define PAGE 256u
#define UNIT 4096u
#define BLOCKS 16u

static uint8_t flash[BLOCKS * UNIT];
static long passes = -1; /* programs and erases until the power goes off in one; none if below zero */
static uint32_t state = 1;

static uint32_t draw(void) {
  state = state * 1664525u + 1013904223u;
  return state >> 8;
}

static int is_off(void) { return passes == 0; }

static int chip_read(uint32_t at, uint8_t *into, uint32_t count) {
  if (is_off()) return 1;
  memcpy(into, flash + at, count);
  return 0;
}

/* Of a program that is cut off any of the bits may be cleared that are to be. */
static int chip_program(uint32_t at, const uint8_t *from, uint32_t count) {
  if (is_off()) return 1;
  if (passes > 0) passes--;
  for (uint32_t i = 0; i < count; i++) flash[at + i] &= from[i] | (is_off() ? (uint8_t)draw() : 0);
  return is_off();
}

/* An erase that is cut off leaves the unit as it was, or any of its bits set, or any bytes; but not two bytes, where `word` isn't
 * below zero, as that word: the driver has programmed them to zero before, and the rest is trusted of the chip. */
static int chip_erase(uint32_t unit, uint32_t mark_at, long word) {
  uint8_t *bytes = flash + unit * UNIT;
  if (is_off()) return 1;
  if (passes > 0) passes--;
  if (!is_off()) {
    memset(bytes, 0xFF, UNIT);
    return 0;
  }
  uint32_t way = draw() % 3;
  for (uint32_t i = 0; way > 0 && i < UNIT; i++) bytes[i] = (uint8_t)(way == 1 ? bytes[i] | draw() : draw());
  if (way > 0 && word >= 0 && (bytes[mark_at] | bytes[mark_at + 1] << 8) == word) bytes[mark_at] ^= 1;
  return 1;
}

#endif
