/* A configuration as firmware has it, for a second run of names.c: meta bytes, a plain magic, a lock, and functions of the chip that
 * are told the volume. */
#ifndef SPIFFS_CONFIG_H
#define SPIFFS_CONFIG_H

#include <stdint.h>

typedef int32_t s32_t;
typedef uint32_t u32_t;
typedef int16_t s16_t;
typedef uint16_t u16_t;
typedef int8_t s8_t;
typedef uint8_t u8_t;
typedef u16_t spiffs_block_ix;
typedef u16_t spiffs_page_ix;
typedef u16_t spiffs_obj_id;
typedef u16_t spiffs_span_ix;

#define SPIFFS_USE_MAGIC 1
#define SPIFFS_USE_MAGIC_LENGTH 0
#define SPIFFS_OBJ_NAME_LEN 32
#define SPIFFS_OBJ_META_LEN 4
#define SPIFFS_HAL_CALLBACK_EXTRA 1

int lock(void);
void unlock(int mine);
#define SPIFFS_LOCK(fs) int mine = lock()
#define SPIFFS_UNLOCK(fs) unlock(mine)

#endif
