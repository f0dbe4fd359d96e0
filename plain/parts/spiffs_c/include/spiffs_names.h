/* SPDX-License-Identifier: MIT OR Apache-2.0 */
/* SPIFFS's own names over spiffs.h, for firmware that was written for SPIFFS 0.3.7 in C: include this in the place of its
 * "spiffs.h", leave its .c files out, and link libspiffs.a. The firmware's spiffs_config.h is read where it is there.
 *
 * Four things differ and want a look:
 *
 * - SPIFFS_mount also checks the volume, as has to be done after each reset, and wants more memory for it. All of it comes from
 *   `cache`, whose size SPIFFS_CACHE_BYTES tells; `work` isn't used and may be NULL. `fd_space` has SPIFFS_FD_BYTES for each
 *   descriptor, and 3 more where it isn't aligned to 4 bytes.
 * - The check calls nothing back: `check_cb_f` isn't used, and what was found stands in `fs->report`.
 * - A volume that SPIFFS in C wrote has blocks with pages of both kinds. The check parts them; where too few blocks are free for that,
 *   SPIFFS_mount answers SPIFFS_ERR_MIXED_BLOCKS and writes nothing.
 * - After a failing program or erase every call answers SPIFFS_ERR_FAILED until the volume is mounted again.
 *
 * What can't be had is refused by the compiler, with a sentence. */
#ifndef LIVERYMENHIR_SPIFFS_NAMES_H
#define LIVERYMENHIR_SPIFFS_NAMES_H

#include <stddef.h>
#include <stdint.h>
#include <string.h>

#include "spiffs.h"

#ifdef __has_include
#if __has_include("spiffs_config.h")
#include "spiffs_config.h"
#define SPIFFS_HAS_CONFIG
#endif
#endif

#ifndef SPIFFS_HAS_CONFIG
typedef int32_t s32_t;
typedef uint32_t u32_t;
typedef int16_t s16_t;
typedef uint16_t u16_t;
typedef int8_t s8_t;
typedef uint8_t u8_t;
typedef u16_t spiffs_block_ix;
typedef u16_t spiffs_page_ix;
typedef u16_t spiffs_obj_id;
typedef u16_t spiffs_span_ix;
#define SPIFFS_USE_MAGIC 1
#define SPIFFS_USE_MAGIC_LENGTH 1
#endif

/* --- what the configuration must not ask for ------------------------------------------------------------------------ */

#if !SPIFFS_USE_MAGIC
#error "SPIFFS_USE_MAGIC has to be 1: a volume without magics can't be told from a blank chip after a power cut"
#endif
#if SPIFFS_SINGLETON
#error "SPIFFS_SINGLETON has to be 0: the numbers of a volume are told by the spiffs_config of SPIFFS_mount"
#endif
#if SPIFFS_READ_ONLY
#error "SPIFFS_READ_ONLY has to be 0: a mount puts in order what a power cut left, and writes for it"
#endif
#if SPIFFS_ALIGNED_OBJECT_INDEX_TABLES
#error "SPIFFS_ALIGNED_OBJECT_INDEX_TABLES has to be 0: index tables begin right behind their header here"
#endif
#if SPIFFS_FILEHDL_OFFSET
#error "SPIFFS_FILEHDL_OFFSET has to be 0: descriptors are numbers from 1"
#endif
#if defined(SPIFFS_OBJ_NAME_LEN) && SPIFFS_OBJ_NAME_LEN != 32
#error "SPIFFS_OBJ_NAME_LEN has to be 32: names have up to 31 bytes on the chip"
#endif
#ifndef SPIFFS_OBJ_NAME_LEN
#define SPIFFS_OBJ_NAME_LEN 32
#endif
#ifndef SPIFFS_OBJ_META_LEN
#define SPIFFS_OBJ_META_LEN 0
#endif
#if SPIFFS_OBJ_META_LEN > 64
#error "SPIFFS_OBJ_META_LEN has to be 64 at most"
#endif
#ifndef SPIFFS_USE_MAGIC_LENGTH
#define SPIFFS_USE_MAGIC_LENGTH 0
#endif
#ifndef SPIFFS_HAL_CALLBACK_EXTRA
#define SPIFFS_HAL_CALLBACK_EXTRA 0
#endif
/* Each call takes the firmware's lock once: two statements in one block, as in C. */
#ifndef SPIFFS_LOCK
#define SPIFFS_LOCK(fs)
#endif
#ifndef SPIFFS_UNLOCK
#define SPIFFS_UNLOCK(fs)
#endif

#ifdef __cplusplus
#define SPIFFS_CANT(type, why) ([] { static_assert(sizeof(type) == 0, why); return (type)0; }())
#define SPIFFS_HAS_TO(is, why) static_assert(is, why)
#else
#define SPIFFS_CANT(type, why) ((type)sizeof(struct { _Static_assert(sizeof(type) == 0, why); int none; }))
#define SPIFFS_HAS_TO(is, why) _Static_assert(is, why)
#endif

SPIFFS_HAS_TO(sizeof(spiffs_obj_id) == 2 && sizeof(spiffs_page_ix) == 2 && sizeof(spiffs_span_ix) == 2 &&
                  sizeof(spiffs_block_ix) == 2,
              "object ids, page, span and block numbers have to be of 16 bits, as they are on the chip");

#define SPIFFS_open_by_dirent(...) SPIFFS_CANT(s32_t, "no file is opened by its entry: call SPIFFS_open with the name in it")
#define SPIFFS_open_by_page(...) SPIFFS_CANT(s32_t, "no file is opened by its page: call SPIFFS_open with its name")
#define SPIFFS_ix_map(...) SPIFFS_CANT(s32_t, "a map of a file is spf_attach_map, and is read by spf_read_map")
#define SPIFFS_ix_unmap(...) SPIFFS_CANT(s32_t, "a map of a file is spf_attach_map, and is read by spf_read_map")
#define SPIFFS_ix_remap(...) SPIFFS_CANT(s32_t, "a map of a file is spf_attach_map, and is read by spf_read_map")
#define SPIFFS_bytes_to_ix_map_entries(...) SPIFFS_CANT(s32_t, "a map of a file is spf_attach_map, and is read by spf_read_map")
#define SPIFFS_ix_map_entries_to_bytes(...) SPIFFS_CANT(s32_t, "a map of a file is spf_attach_map, and is read by spf_read_map")
#define SPIFFS_gc_quick(...) SPIFFS_CANT(s32_t, "there is no quick collection: call SPIFFS_gc")
#define SPIFFS_set_file_callback_func(...) SPIFFS_CANT(s32_t, "no function is called back when a file changes")
#define SPIFFS_probe_fs(...) SPIFFS_CANT(s32_t, "the size of a volume isn't probed: it has to be told in spiffs_config")
#define SPIFFS_buffer_bytes_for_filedescs(...) SPIFFS_CANT(u32_t, "each descriptor takes SPIFFS_FD_BYTES")
#define SPIFFS_buffer_bytes_for_cache(...) SPIFFS_CANT(u32_t, "the size of the cache is told by SPIFFS_CACHE_BYTES")
#define SPIFFS_vis(...) SPIFFS_CANT(s32_t, "nothing is printed: the program spiffs lists an image of the chip")
#if !SPIFFS_OBJ_META_LEN
#define SPIFFS_update_meta(...) SPIFFS_CANT(s32_t, "files have no meta bytes where SPIFFS_OBJ_META_LEN is 0")
#define SPIFFS_fupdate_meta(...) SPIFFS_CANT(s32_t, "files have no meta bytes where SPIFFS_OBJ_META_LEN is 0")
#endif

/* --- numbers and types ------------------------------------------------------------------------------------------------ */

#define SPIFFS_OK 0
#define SPIFFS_ERR_NOT_MOUNTED -10000
#define SPIFFS_ERR_FULL -10001
#define SPIFFS_ERR_NOT_FOUND -10002
#define SPIFFS_ERR_END_OF_OBJECT -10003
#define SPIFFS_ERR_OUT_OF_FILE_DESCS -10007
#define SPIFFS_ERR_BAD_DESCRIPTOR -10010
#define SPIFFS_ERR_NOT_WRITABLE -10021
#define SPIFFS_ERR_NOT_READABLE -10022
#define SPIFFS_ERR_CONFLICTING_NAME -10023
#define SPIFFS_ERR_NOT_CONFIGURED -10024
#define SPIFFS_ERR_NOT_A_FS -10025
#define SPIFFS_ERR_MOUNTED -10026
#define SPIFFS_ERR_FILE_EXISTS -10030
#define SPIFFS_ERR_NAME_TOO_LONG -10036
#define SPIFFS_ERR_SEEK_BOUNDS -10040
/* numbers of SPIFFS in C that no call answers here */
#define SPIFFS_ERR_DELETED -10004
#define SPIFFS_ERR_NOT_FINALIZED -10005
#define SPIFFS_ERR_NOT_INDEX -10006
#define SPIFFS_ERR_FILE_CLOSED -10008
#define SPIFFS_ERR_FILE_DELETED -10009
#define SPIFFS_ERR_IS_INDEX -10011
#define SPIFFS_ERR_IS_FREE -10012
#define SPIFFS_ERR_INDEX_SPAN_MISMATCH -10013
#define SPIFFS_ERR_DATA_SPAN_MISMATCH -10014
#define SPIFFS_ERR_INDEX_REF_FREE -10015
#define SPIFFS_ERR_INDEX_REF_LU -10016
#define SPIFFS_ERR_INDEX_REF_INVALID -10017
#define SPIFFS_ERR_INDEX_FREE -10018
#define SPIFFS_ERR_INDEX_LU -10019
#define SPIFFS_ERR_INDEX_INVALID -10020
#define SPIFFS_ERR_ERASE_FAIL -10027
#define SPIFFS_ERR_MAGIC_NOT_POSSIBLE -10028
#define SPIFFS_ERR_NO_DELETED_BLOCKS -10029
#define SPIFFS_ERR_NOT_A_FILE -10031
#define SPIFFS_ERR_RO_NOT_IMPL -10032
#define SPIFFS_ERR_RO_ABORTED_OPERATION -10033
#define SPIFFS_ERR_PROBE_TOO_FEW_BLOCKS -10034
#define SPIFFS_ERR_PROBE_NOT_A_FS -10035
#define SPIFFS_ERR_IX_MAP_UNMAPPED -10037
#define SPIFFS_ERR_IX_MAP_MAPPED -10038
#define SPIFFS_ERR_IX_MAP_BAD_RANGE -10039
#define SPIFFS_ERR_INTERNAL -10050
#define SPIFFS_ERR_TEST -10100
/* numbers that SPIFFS in C hasn't */
#define SPIFFS_ERR_BAD_NAME SPF_BAD_NAME
#define SPIFFS_ERR_BAD_FLAGS SPF_BAD_FLAGS
#define SPIFFS_ERR_FAILED SPF_FAILED
#define SPIFFS_ERR_DEVICE_FAULT SPF_DEVICE_FAULT
#define SPIFFS_ERR_DAMAGED SPF_DAMAGED
#define SPIFFS_ERR_WRONG_CHIP SPF_WRONG_CHIP
#define SPIFFS_ERR_SHORT_MEMORY SPF_SHORT_MEMORY
#define SPIFFS_ERR_MIXED_BLOCKS SPF_MIXED_BLOCKS

#define SPIFFS_APPEND SPF_APPEND
#define SPIFFS_O_APPEND SPF_APPEND
#define SPIFFS_TRUNC SPF_TRUNC
#define SPIFFS_O_TRUNC SPF_TRUNC
#define SPIFFS_CREAT SPF_CREAT
#define SPIFFS_O_CREAT SPF_CREAT
#define SPIFFS_RDONLY SPF_RDONLY
#define SPIFFS_O_RDONLY SPF_RDONLY
#define SPIFFS_WRONLY SPF_WRONLY
#define SPIFFS_O_WRONLY SPF_WRONLY
#define SPIFFS_RDWR SPF_RDWR
#define SPIFFS_O_RDWR SPF_RDWR
#define SPIFFS_DIRECT SPF_DIRECT
#define SPIFFS_O_DIRECT SPF_DIRECT
#define SPIFFS_EXCL SPF_EXCL
#define SPIFFS_O_EXCL SPF_EXCL
#define SPIFFS_SEEK_SET SPF_SEEK_SET
#define SPIFFS_SEEK_CUR SPF_SEEK_CUR
#define SPIFFS_SEEK_END SPF_SEEK_END
#define SPIFFS_TYPE_FILE 1
#define SPIFFS_TYPE_DIR 2
#define SPIFFS_TYPE_HARD_LINK 3
#define SPIFFS_TYPE_SOFT_LINK 4

/* Bytes of a descriptor. */
#define SPIFFS_FD_BYTES 8

/* Bytes of cache for a volume, of which so many pages are kept: a constant, so that an array can be of that size. */
#define SPIFFS_WORK_BYTES(page, block, blocks)                                                                       \
  (4u * (page) + 4u * ((block) / (page)) + 16u * (blocks) +                                                          \
   (blocks) * ((block) / (page) - SPIFFS_LOOKUP_PAGES(page, block)) / 8u + 1u)
#define SPIFFS_LOOKUP_PAGES(page, block) (2u * ((block) / (page)) < (page) ? 1u : 2u * ((block) / (page)) / (page))
#define SPIFFS_CHECK_BYTES(page, block, blocks) ((blocks) * ((block) / (page)) + 8192u)
#define SPIFFS_CACHE_BYTES(page, block, blocks, pages)                                                               \
  (SPIFFS_WORK_BYTES(page, block, blocks) + SPIFFS_CHECK_BYTES(page, block, blocks) + (page) + (pages) * ((page) + 8u))

struct spiffs_t;
#if SPIFFS_HAL_CALLBACK_EXTRA
typedef s32_t (*spiffs_read)(struct spiffs_t *fs, u32_t addr, u32_t size, u8_t *dst);
typedef s32_t (*spiffs_write)(struct spiffs_t *fs, u32_t addr, u32_t size, u8_t *src);
typedef s32_t (*spiffs_erase)(struct spiffs_t *fs, u32_t addr, u32_t size);
#define SPIFFS_HAL(fs, call, ...) (fs)->cfg.call((fs), __VA_ARGS__)
#else
typedef s32_t (*spiffs_read)(u32_t addr, u32_t size, u8_t *dst);
typedef s32_t (*spiffs_write)(u32_t addr, u32_t size, u8_t *src);
typedef s32_t (*spiffs_erase)(u32_t addr, u32_t size);
#define SPIFFS_HAL(fs, call, ...) (fs)->cfg.call(__VA_ARGS__)
#endif

typedef struct {
  spiffs_read hal_read_f;
  spiffs_write hal_write_f;
  spiffs_erase hal_erase_f;
  u32_t phys_size;
  u32_t phys_addr;
  u32_t phys_erase_block;
  u32_t log_block_size;
  u32_t log_page_size;
} spiffs_config;

typedef s16_t spiffs_file;
typedef u16_t spiffs_flags;
typedef u16_t spiffs_mode; /* isn't used, here as in C */
typedef u8_t spiffs_obj_type;

/* What a check in C calls back. Nothing is called here: `fs->report` has what was found. */
typedef enum { SPIFFS_CHECK_LOOKUP = 0, SPIFFS_CHECK_INDEX, SPIFFS_CHECK_PAGE } spiffs_check_type;
typedef enum {
  SPIFFS_CHECK_PROGRESS = 0, SPIFFS_CHECK_ERROR, SPIFFS_CHECK_FIX_INDEX, SPIFFS_CHECK_FIX_LOOKUP,
  SPIFFS_CHECK_DELETE_ORPHANED_INDEX, SPIFFS_CHECK_DELETE_PAGE, SPIFFS_CHECK_DELETE_BAD_FILE
} spiffs_check_report;
#if SPIFFS_HAL_CALLBACK_EXTRA
typedef void (*spiffs_check_callback)(struct spiffs_t *fs, spiffs_check_type type, spiffs_check_report report, u32_t arg1,
                                      u32_t arg2);
#else
typedef void (*spiffs_check_callback)(spiffs_check_type type, spiffs_check_report report, u32_t arg1, u32_t arg2);
#endif

/* A volume, static or set to zero before its first call. */
typedef struct spiffs_t {
  spiffs_config cfg;
  s32_t err_code;
  void *user_data; /* the firmware's own */
  spf_report report; /* of the last mount or check */
  spf_memory memory;
  spf_volume volume;
  u8_t is_mounted;
} spiffs;

typedef struct {
  spiffs_obj_id obj_id;
  u32_t size;
  spiffs_obj_type type;
  u8_t name[SPIFFS_OBJ_NAME_LEN];
#if SPIFFS_OBJ_META_LEN
  u8_t meta[SPIFFS_OBJ_META_LEN];
#endif
} spiffs_stat;

struct spiffs_dirent {
  spiffs_obj_id obj_id;
  u8_t name[SPIFFS_OBJ_NAME_LEN];
  spiffs_obj_type type;
  u32_t size;
#if SPIFFS_OBJ_META_LEN
  u8_t meta[SPIFFS_OBJ_META_LEN];
#endif
};

typedef struct {
  spiffs *fs;
  u16_t after; /* the id of the entry that was told last */
} spiffs_DIR;

/* --- the chip ----------------------------------------------------------------------------------------------------------- */

static inline int spiffs_names_read(void *context, uint32_t at, uint8_t *into, uint32_t count) {
  spiffs *fs = (spiffs *)context;
  return SPIFFS_HAL(fs, hal_read_f, fs->cfg.phys_addr + at, count, into) != SPIFFS_OK;
}

static inline int spiffs_names_program(void *context, uint32_t at, const uint8_t *from, uint32_t count) {
  spiffs *fs = (spiffs *)context;
  return SPIFFS_HAL(fs, hal_write_f, fs->cfg.phys_addr + at, count, (u8_t *)(uintptr_t)from) != SPIFFS_OK;
}

/* (the mark is programmed to zero first, where it is there, so that an erase that is cut off doesn't leave it) */
static inline int spiffs_names_erase(void *context, uint32_t unit, const spf_mark *mark) {
  spiffs *fs = (spiffs *)context;
  static const uint8_t zeros[2] = {0, 0};
  uint8_t there[2];
  u32_t size = fs->cfg.phys_erase_block;
  if (mark) {
    if (spiffs_names_read(context, unit * size + mark->at, there, 2)) return 1;
    if ((there[0] | there[1] << 8) == mark->word && spiffs_names_program(context, unit * size + mark->at, zeros, 2)) return 1;
  }
  return SPIFFS_HAL(fs, hal_erase_f, fs->cfg.phys_addr + unit * size, size) != SPIFFS_OK;
}

static inline spf_chip spiffs_names_chip(spiffs *fs) {
  spf_chip chip = {fs, fs->cfg.phys_size, fs->cfg.phys_erase_block, spiffs_names_read, spiffs_names_program,
                   spiffs_names_erase};
  return chip;
}

static inline spf_numbers spiffs_names_numbers(const spiffs *fs) {
  const spiffs_config *c = &fs->cfg;
  spf_numbers numbers = {c->log_page_size, c->log_block_size, c->log_block_size ? c->phys_size / c->log_block_size : 0,
                         c->phys_erase_block, SPIFFS_OBJ_META_LEN, SPIFFS_USE_MAGIC_LENGTH ? 1 : 0};
  return numbers;
}

/* --- calls -------------------------------------------------------------------------------------------------------------- */

/* An answer with SPIFFS's number where SPIFFS has one, which is kept for SPIFFS_errno where it is an error. */
static inline s32_t spiffs_names_told(spiffs *fs, s32_t answer) {
  switch (answer) {
    case SPF_NOT_A_FS: answer = SPIFFS_ERR_NOT_A_FS; break;
    case SPF_NOT_MOUNTED: answer = SPIFFS_ERR_NOT_MOUNTED; break;
    case SPF_BAD_NUMBERS: answer = SPIFFS_ERR_NOT_CONFIGURED; break;
    case SPF_SEEK_BOUNDS: answer = SPIFFS_ERR_SEEK_BOUNDS; break;
    case SPF_TIGHT: answer = SPIFFS_ERR_FULL; break;
    default: break;
  }
  if (answer < 0) fs->err_code = answer;
  return answer;
}

/* The body of a call: what it does, within the firmware's lock, and its answer. */
#define SPIFFS_NAMES_CALL(type, fs, call)                                                                            \
  s32_t told;                                                                                                        \
  SPIFFS_LOCK(fs);                                                                                                   \
  told = spiffs_names_told(fs, call);                                                                                \
  SPIFFS_UNLOCK(fs);                                                                                                 \
  return (type)told

static inline s32_t spiffs_names_mount(spiffs *fs) {
  spf_numbers numbers = spiffs_names_numbers(fs);
  spf_chip chip = spiffs_names_chip(fs);
  s32_t answer = spf_mount(&fs->volume, &numbers, &chip, &fs->memory, &fs->report);
  fs->is_mounted = answer >= 0;
  return answer;
}

/* Shares the lent memory out, and mounts. (where it is too little none is lent, which spf_mount refuses) */
static inline s32_t spiffs_names_begin(spiffs *fs, u8_t *fd_space, u32_t fd_space_size, u8_t *cache, u32_t cache_size) {
  spf_needs needs;
  spf_numbers numbers = spiffs_names_numbers(fs);
  u32_t skipped = (u32_t)(-(uintptr_t)fd_space & 3u);
  memset(&fs->memory, 0, sizeof fs->memory);
  if (spf_needs_of(&numbers, &needs) == 0 && cache_size >= needs.work + needs.check + needs.window &&
      fd_space_size >= skipped) {
    fs->memory.work = cache;
    fs->memory.work_size = needs.work;
    fs->memory.check = cache + needs.work;
    fs->memory.check_size = needs.check;
    fs->memory.window = fs->memory.check + needs.check;
    fs->memory.window_size = needs.window;
    fs->memory.cache = fs->memory.window + needs.window;
    fs->memory.cache_size = cache_size - needs.work - needs.check - needs.window;
    fs->memory.slots = (uint32_t *)(void *)(fd_space + skipped);
    fs->memory.slot_count = (fd_space_size - skipped) / needs.slot;
  }
  return spiffs_names_mount(fs);
}

static inline s32_t SPIFFS_mount(spiffs *fs, spiffs_config *config, u8_t *work, u8_t *fd_space, u32_t fd_space_size,
                                 void *cache, u32_t cache_size, spiffs_check_callback check_cb_f) {
  (void)work;
  (void)check_cb_f;
  fs->cfg = *config;
  fs->err_code = SPIFFS_OK;
  SPIFFS_NAMES_CALL(s32_t, fs, spiffs_names_begin(fs, fd_space, fd_space_size, (u8_t *)cache, cache_size));
}

static inline u8_t SPIFFS_mounted(spiffs *fs) { return fs->is_mounted; }

/* Puts what waits onto the chip. */
static inline s32_t spiffs_names_end(spiffs *fs) {
  s32_t answer = fs->is_mounted ? (s32_t)spf_unmount(&fs->volume) : SPF_NOT_MOUNTED;
  fs->is_mounted = 0;
  return answer;
}

/* It answers nothing, as in C: SPIFFS_errno tells what failed. */
static inline s32_t spiffs_names_unmount(spiffs *fs) { SPIFFS_NAMES_CALL(s32_t, fs, spiffs_names_end(fs)); }
static inline void SPIFFS_unmount(spiffs *fs) {
  if (fs->is_mounted) spiffs_names_unmount(fs);
}

static inline s32_t spiffs_names_format(spiffs *fs) {
  spf_numbers numbers = spiffs_names_numbers(fs);
  spf_chip chip = spiffs_names_chip(fs);
  if (fs->is_mounted) return SPIFFS_ERR_MOUNTED;
  return fs->cfg.hal_erase_f ? (s32_t)spf_format(&numbers, &chip) : SPIFFS_ERR_NOT_CONFIGURED;
}

/* Of a volume that isn't mounted, after a SPIFFS_mount that told its numbers. */
static inline s32_t SPIFFS_format(spiffs *fs) { SPIFFS_NAMES_CALL(s32_t, fs, spiffs_names_format(fs)); }

static inline s32_t spiffs_names_again(spiffs *fs) {
  s32_t answer = spiffs_names_end(fs);
  return answer < 0 ? answer : spiffs_names_mount(fs);
}

/* Puts what waits onto the chip, mounts again, and checks; every descriptor is closed by that. `fs->report` tells what was found. */
static inline s32_t SPIFFS_check(spiffs *fs) { SPIFFS_NAMES_CALL(s32_t, fs, spiffs_names_again(fs)); }

static inline s32_t SPIFFS_errno(spiffs *fs) { return fs->err_code; }
static inline void SPIFFS_clearerr(spiffs *fs) { fs->err_code = SPIFFS_OK; }

static inline s32_t SPIFFS_creat(spiffs *fs, const char *path, spiffs_mode mode) {
  (void)mode;
  SPIFFS_NAMES_CALL(s32_t, fs, spf_create(&fs->volume, path));
}

static inline spiffs_file SPIFFS_open(spiffs *fs, const char *path, spiffs_flags flags, spiffs_mode mode) {
  (void)mode;
  SPIFFS_NAMES_CALL(spiffs_file, fs, spf_open(&fs->volume, path, flags));
}

/* A read at the end of a file answers SPIFFS_ERR_END_OF_OBJECT. */
static inline s32_t spiffs_names_bytes(s32_t answer, s32_t len) {
  return answer == 0 && len > 0 ? SPIFFS_ERR_END_OF_OBJECT : answer;
}

static inline s32_t SPIFFS_read(spiffs *fs, spiffs_file fh, void *buf, s32_t len) {
  SPIFFS_NAMES_CALL(s32_t, fs, spiffs_names_bytes(spf_read(&fs->volume, fh, buf, len < 0 ? 0 : (u32_t)len), len));
}

static inline s32_t SPIFFS_write(spiffs *fs, spiffs_file fh, const void *buf, s32_t len) {
  SPIFFS_NAMES_CALL(s32_t, fs, spf_write(&fs->volume, fh, buf, len < 0 ? 0 : (u32_t)len));
}

/* Behind the end of a file the place is its end, and the answer SPIFFS_ERR_END_OF_OBJECT; before its beginning nothing changes. */
static inline s32_t spiffs_names_seek(spiffs *fs, spiffs_file fh, s32_t offs, int whence) {
  s32_t answer = spf_seek(&fs->volume, fh, offs, whence);
  if (answer != SPF_SEEK_BOUNDS || offs < 0) return answer;
  answer = spf_seek(&fs->volume, fh, 0, SPF_SEEK_END);
  return answer < 0 ? answer : SPIFFS_ERR_END_OF_OBJECT;
}

static inline s32_t SPIFFS_lseek(spiffs *fs, spiffs_file fh, s32_t offs, int whence) {
  SPIFFS_NAMES_CALL(s32_t, fs, spiffs_names_seek(fs, fh, offs, whence));
}

static inline s32_t SPIFFS_tell(spiffs *fs, spiffs_file fh) { SPIFFS_NAMES_CALL(s32_t, fs, spf_tell(&fs->volume, fh)); }

static inline s32_t SPIFFS_remove(spiffs *fs, const char *path) {
  SPIFFS_NAMES_CALL(s32_t, fs, spf_remove(&fs->volume, path));
}

static inline s32_t SPIFFS_fremove(spiffs *fs, spiffs_file fh) {
  SPIFFS_NAMES_CALL(s32_t, fs, spf_fremove(&fs->volume, fh));
}

static inline s32_t SPIFFS_fflush(spiffs *fs, spiffs_file fh) {
  SPIFFS_NAMES_CALL(s32_t, fs, spf_flush(&fs->volume, fh));
}

static inline s32_t SPIFFS_close(spiffs *fs, spiffs_file fh) {
  SPIFFS_NAMES_CALL(s32_t, fs, spf_close(&fs->volume, fh));
}

static inline s32_t SPIFFS_rename(spiffs *fs, const char *old_path, const char *new_path) {
  SPIFFS_NAMES_CALL(s32_t, fs, spf_rename(&fs->volume, old_path, new_path));
}

static inline s32_t spiffs_names_put(s32_t answer, const spf_stat *from, spiffs_stat *into) {
  if (answer < 0) return answer;
  into->obj_id = from->id;
  into->size = from->size;
  into->type = from->type;
  memcpy(into->name, from->name, SPIFFS_OBJ_NAME_LEN);
#if SPIFFS_OBJ_META_LEN
  memcpy(into->meta, from->meta, SPIFFS_OBJ_META_LEN);
#endif
  return answer;
}

static inline s32_t SPIFFS_stat(spiffs *fs, const char *path, spiffs_stat *s) {
  spf_stat stat;
  SPIFFS_NAMES_CALL(s32_t, fs, spiffs_names_put(spf_stat_of(&fs->volume, path, &stat), &stat, s));
}

static inline s32_t SPIFFS_fstat(spiffs *fs, spiffs_file fh, spiffs_stat *s) {
  spf_stat stat;
  SPIFFS_NAMES_CALL(s32_t, fs, spiffs_names_put(spf_fstat(&fs->volume, fh, &stat), &stat, s));
}

static inline s32_t spiffs_names_at_end(spiffs *fs, spiffs_file fh) {
  spf_stat stat;
  s32_t at = spf_tell(&fs->volume, fh);
  s32_t answer = at < 0 ? at : spf_fstat(&fs->volume, fh, &stat);
  return answer < 0 ? answer : (u32_t)at >= stat.size;
}

/* 1 at the file's end, else 0. */
static inline s32_t SPIFFS_eof(spiffs *fs, spiffs_file fh) { SPIFFS_NAMES_CALL(s32_t, fs, spiffs_names_at_end(fs, fh)); }

#if SPIFFS_OBJ_META_LEN
static inline s32_t SPIFFS_update_meta(spiffs *fs, const char *name, const void *meta) {
  SPIFFS_NAMES_CALL(s32_t, fs, spf_set_meta(&fs->volume, name, (const uint8_t *)meta, SPIFFS_OBJ_META_LEN));
}

static inline s32_t SPIFFS_fupdate_meta(spiffs *fs, spiffs_file fh, const void *meta) {
  SPIFFS_NAMES_CALL(s32_t, fs, spf_fset_meta(&fs->volume, fh, (const uint8_t *)meta, SPIFFS_OBJ_META_LEN));
}
#endif

/* There is one folder, whose name isn't looked at. Entries come in the order of their ids. */
static inline spiffs_DIR *SPIFFS_opendir(spiffs *fs, const char *name, spiffs_DIR *d) {
  (void)name;
  if (!fs->is_mounted) {
    spiffs_names_told(fs, SPIFFS_ERR_NOT_MOUNTED);
    return NULL;
  }
  d->fs = fs;
  d->after = 0;
  return d;
}

static inline s32_t spiffs_names_next(spiffs *fs, u16_t after, spf_stat *stat) {
  SPIFFS_NAMES_CALL(s32_t, fs, spf_next(&fs->volume, after, stat));
}

static inline struct spiffs_dirent *SPIFFS_readdir(spiffs_DIR *d, struct spiffs_dirent *e) {
  spf_stat stat;
  if (spiffs_names_next(d->fs, d->after, &stat) != 1) return NULL;
  d->after = stat.id;
  e->obj_id = stat.id;
  e->type = stat.type;
  e->size = stat.size;
  memcpy(e->name, stat.name, SPIFFS_OBJ_NAME_LEN);
#if SPIFFS_OBJ_META_LEN
  memcpy(e->meta, stat.meta, SPIFFS_OBJ_META_LEN);
#endif
  return e;
}

static inline s32_t SPIFFS_closedir(spiffs_DIR *d) { return d->fs->is_mounted ? SPIFFS_OK : SPIFFS_ERR_NOT_MOUNTED; }

static inline s32_t spiffs_names_info(spiffs *fs, u32_t *total, u32_t *used) {
  spf_info info;
  u32_t body = fs->cfg.log_page_size - 5;
  s32_t answer = spf_info_of(&fs->volume, &info);
  if (answer >= 0 && total) *total = (info.usable_pages + 1) * body;
  if (answer >= 0 && used) *used = (info.index_pages + info.data_pages) * body;
  return answer;
}

/* Bytes of data pages that files can have, and of pages that they take, counted as SPIFFS in C counts them. */
static inline s32_t SPIFFS_info(spiffs *fs, u32_t *total, u32_t *used) {
  SPIFFS_NAMES_CALL(s32_t, fs, spiffs_names_info(fs, total, used));
}

/* Cleans every block that is worth cleaning, whatever size is asked for. */
static inline s32_t SPIFFS_gc(spiffs *fs, u32_t size) {
  (void)size;
  SPIFFS_NAMES_CALL(s32_t, fs, spf_gc(&fs->volume));
}

#endif
