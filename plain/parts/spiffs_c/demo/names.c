/* Firmware that was written for SPIFFS in C, over spiffs_names.h: what it asks, and what it has to be told. It is built twice: without
 * a configuration, and with that of the folder `config`. */
#include "spiffs_names.h"

#include "chip.h"

#include <stdio.h>

#define FRAMES 4u

static u8_t fd_space[4 * SPIFFS_FD_BYTES + 3];
static u8_t cache[SPIFFS_CACHE_BYTES(PAGE, UNIT, BLOCKS, FRAMES)];
static spiffs fs;
static int wrong = 0;
static int locks = 0, is_locked = 0;

/* What was answered, and what that has to be. */
static void expect(const char *what, long told, long wanted) {
  if (told == wanted) return;
  printf("%s: %ld, and not %ld\n", what, told, wanted);
  wrong++;
}

/* The lock of the configuration, which a call takes once, around all that it asks of the chip. */
int lock(void) {
  expect("a lock within a lock", is_locked, 0);
  is_locked = 1;
  return ++locks;
}

void unlock(int mine) {
  expect("the lock that is given back", mine, locks);
  is_locked = 0;
}

#if SPIFFS_HAL_CALLBACK_EXTRA
#define OF_VOLUME spiffs *of,
#define IS_CALLED_WELL (of == &fs && is_locked)
#else
#define OF_VOLUME
#define IS_CALLED_WELL 1
#endif

static s32_t done(int is_well, int failed) { return is_well && !failed ? SPIFFS_OK : -1; }
static s32_t hal_read(OF_VOLUME u32_t addr, u32_t size, u8_t *dst) { return done(IS_CALLED_WELL, chip_read(addr, dst, size)); }
static s32_t hal_write(OF_VOLUME u32_t addr, u32_t size, u8_t *src) { return done(IS_CALLED_WELL, chip_program(addr, src, size)); }
static s32_t hal_erase(OF_VOLUME u32_t addr, u32_t size) { return done(IS_CALLED_WELL && size == UNIT, chip_erase(addr / UNIT, 0, -1)); }

static s32_t mount(u32_t cache_size) {
  spiffs_config config;
  memset(&config, 0, sizeof config);
  config.hal_read_f = hal_read;
  config.hal_write_f = hal_write;
  config.hal_erase_f = hal_erase;
  config.phys_size = sizeof flash;
  config.phys_erase_block = UNIT;
  config.log_block_size = UNIT;
  config.log_page_size = PAGE;
  return SPIFFS_mount(&fs, &config, NULL, fd_space + 1, sizeof fd_space - 1, cache, cache_size, NULL);
}

static void start(void) {
  memset(flash, 0xFF, sizeof flash);
  expect("a call before the mount", SPIFFS_creat(&fs, "a", 0), SPIFFS_ERR_NOT_MOUNTED);
  expect("format before the mount", SPIFFS_format(&fs), SPIFFS_ERR_NOT_CONFIGURED);
  expect("mount of a blank chip", mount(sizeof cache), SPIFFS_ERR_NOT_A_FS);
  expect("its error", SPIFFS_errno(&fs), SPIFFS_ERR_NOT_A_FS);
  expect("format", SPIFFS_format(&fs), SPIFFS_OK);
  expect("mount with too little", mount(sizeof cache - FRAMES * (PAGE + 8) + PAGE), SPIFFS_ERR_SHORT_MEMORY);
  expect("mount", mount(sizeof cache - (FRAMES - 1) * (PAGE + 8)), SPIFFS_OK);
  expect("mounted", SPIFFS_mounted(&fs), 1);
  expect("format of a mounted volume", SPIFFS_format(&fs), SPIFFS_ERR_MOUNTED);
  SPIFFS_clearerr(&fs);
  expect("no error", SPIFFS_errno(&fs), SPIFFS_OK);
}

static void files(void) {
  char piece[8];
  spiffs_stat stat;
  expect("open of a missing file", SPIFFS_open(&fs, "log", SPIFFS_RDONLY, 0), SPIFFS_ERR_NOT_FOUND);
  spiffs_file fd = SPIFFS_open(&fs, "log", SPIFFS_CREAT | SPIFFS_RDWR, 0);
  expect("open", fd, 1);
  expect("write", SPIFFS_write(&fs, fd, "hello", 5), 5);
  expect("tell", SPIFFS_tell(&fs, fd), 5);
  expect("at the end", SPIFFS_eof(&fs, fd), 1);
  expect("read at the end", SPIFFS_read(&fs, fd, piece, sizeof piece), SPIFFS_ERR_END_OF_OBJECT);
  expect("seek before the beginning", SPIFFS_lseek(&fs, fd, -6, SPIFFS_SEEK_CUR), SPIFFS_ERR_SEEK_BOUNDS);
  expect("seek to the beginning", SPIFFS_lseek(&fs, fd, 0, SPIFFS_SEEK_SET), 0);
  expect("seek behind the end", SPIFFS_lseek(&fs, fd, 9, SPIFFS_SEEK_SET), SPIFFS_ERR_END_OF_OBJECT);
  expect("where that leads", SPIFFS_tell(&fs, fd), 5);
  expect("seek", SPIFFS_lseek(&fs, fd, -4, SPIFFS_SEEK_END), 1);
  expect("not at the end", SPIFFS_eof(&fs, fd), 0);
  expect("read", SPIFFS_read(&fs, fd, piece, sizeof piece), 4);
  expect("what was read", memcmp(piece, "ello", 4), 0);
  expect("fflush", SPIFFS_fflush(&fs, fd), SPIFFS_OK);
  expect("fstat", SPIFFS_fstat(&fs, fd, &stat), SPIFFS_OK);
  expect("its size", (long)stat.size, 5);
  expect("its name", strcmp((const char *)stat.name, "log"), 0);
  expect("its type", stat.type, SPIFFS_TYPE_FILE);
  expect("close", SPIFFS_close(&fs, fd), SPIFFS_OK);
  expect("close again", SPIFFS_close(&fs, fd), SPIFFS_ERR_BAD_DESCRIPTOR);
  expect("creat", SPIFFS_creat(&fs, "two", 0), SPIFFS_OK);
  expect("creat again", SPIFFS_creat(&fs, "two", 0), SPIFFS_ERR_CONFLICTING_NAME);
  expect("rename onto another", SPIFFS_rename(&fs, "log", "two"), SPIFFS_ERR_CONFLICTING_NAME);
  expect("rename", SPIFFS_rename(&fs, "log", "log.1"), SPIFFS_OK);
  expect("stat", SPIFFS_stat(&fs, "log.1", &stat), SPIFFS_OK);
  expect("stat of none", SPIFFS_stat(&fs, "log", &stat), SPIFFS_ERR_NOT_FOUND);
}

static void folder(void) {
  spiffs_DIR d;
  struct spiffs_dirent e;
  char names[64] = "";
  expect("opendir", SPIFFS_opendir(&fs, "/", &d) == &d, 1);
  while (SPIFFS_readdir(&d, &e)) {
    strcat(names, (const char *)e.name);
    strcat(names, " ");
  }
  expect("closedir", SPIFFS_closedir(&d), SPIFFS_OK);
  expect("the names", strcmp(names, "log.1 two "), 0);
}

/* Meta bytes: 0xFF at first, then what a name or a descriptor gave them last. */
#if SPIFFS_OBJ_META_LEN
static void meta(void) {
  spiffs_stat stat;
  static const u8_t none[4] = {0xFF, 0xFF, 0xFF, 0xFF};
  expect("stat before any meta bytes", SPIFFS_stat(&fs, "two", &stat), SPIFFS_OK);
  expect("the first meta bytes", memcmp(stat.meta, none, 4), 0);
  expect("update_meta", SPIFFS_update_meta(&fs, "two", "abcd"), SPIFFS_OK);
  expect("update_meta of none", SPIFFS_update_meta(&fs, "log", "abcd"), SPIFFS_ERR_NOT_FOUND);
  expect("stat", SPIFFS_stat(&fs, "two", &stat), SPIFFS_OK);
  expect("the meta bytes", memcmp(stat.meta, "abcd", 4), 0);
  spiffs_file fd = SPIFFS_open(&fs, "two", SPIFFS_RDONLY, 0);
  expect("fupdate_meta without writing", SPIFFS_fupdate_meta(&fs, fd, "efgh"), SPIFFS_ERR_NOT_WRITABLE);
  expect("close", SPIFFS_close(&fs, fd), SPIFFS_OK);
  fd = SPIFFS_open(&fs, "two", SPIFFS_RDWR, 0);
  expect("fupdate_meta", SPIFFS_fupdate_meta(&fs, fd, "efgh"), SPIFFS_OK);
  expect("fstat", SPIFFS_fstat(&fs, fd, &stat), SPIFFS_OK);
  expect("the meta bytes by a descriptor", memcmp(stat.meta, "efgh", 4), 0);
  expect("close", SPIFFS_close(&fs, fd), SPIFFS_OK);
  spiffs_DIR d;
  struct spiffs_dirent e;
  SPIFFS_opendir(&fs, "/", &d);
  while (SPIFFS_readdir(&d, &e))
    expect("an entry's meta bytes", memcmp(e.meta, e.obj_id == stat.obj_id ? (const u8_t *)"efgh" : none, 4), 0);
}
#endif

static void rest(void) {
  u32_t total = 0, used = 0;
  expect("info", SPIFFS_info(&fs, &total, &used), SPIFFS_OK);
  expect("all bytes", (long)total, (14 * 15 + 1) * 251);
  expect("bytes in use", (long)used, 3 * 251);
  expect("gc", SPIFFS_gc(&fs, 1000), SPIFFS_OK);
  spiffs_file fd = SPIFFS_open(&fs, "two", SPIFFS_RDWR, 0);
  expect("write that waits", SPIFFS_write(&fs, fd, "x", 1), 1);
  expect("check", SPIFFS_check(&fs), SPIFFS_OK);
  expect("a descriptor from before it", SPIFFS_tell(&fs, fd), SPIFFS_ERR_BAD_DESCRIPTOR);
  spiffs_stat stat;
  expect("what had waited", SPIFFS_stat(&fs, "two", &stat) == SPIFFS_OK && stat.size == 1, 1);
  fd = SPIFFS_open(&fs, "two", SPIFFS_RDWR, 0);
  expect("fremove", SPIFFS_fremove(&fs, fd), SPIFFS_OK);
  expect("remove", SPIFFS_remove(&fs, "log.1"), SPIFFS_OK);
  expect("remove again", SPIFFS_remove(&fs, "log.1"), SPIFFS_ERR_NOT_FOUND);
  SPIFFS_unmount(&fs);
  expect("unmounted", SPIFFS_mounted(&fs), 0);
  expect("a call after that", SPIFFS_creat(&fs, "a", 0), SPIFFS_ERR_NOT_MOUNTED);
  expect("mount again", mount(sizeof cache), SPIFFS_OK);
  expect("mount with no memory", mount(0), SPIFFS_ERR_SHORT_MEMORY);
  expect("a call after that", SPIFFS_creat(&fs, "a", 0), SPIFFS_ERR_NOT_MOUNTED);
}

int main(void) {
  start();
  files();
  folder();
#if SPIFFS_OBJ_META_LEN
  meta();
  expect("locks were taken", locks > 0 && !is_locked, 1);
#endif
  rest();
  printf("SPIFFS's names: %d answers are wrong\n", wrong);
  return wrong != 0;
}
