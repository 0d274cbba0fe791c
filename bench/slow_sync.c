/* Each sync of a file takes so many microseconds more: gcc -shared -fPIC -o slow_sync.so slow_sync.c, then SYNC_MICROSECONDS=5000
   LD_PRELOAD=./slow_sync.so PROGRAM. So a disk stands in for a slower one. */
#define _GNU_SOURCE
#include <dlfcn.h>
#include <stdlib.h>
#include <unistd.h>

static void wait_more(void) {
  const char *more = getenv("SYNC_MICROSECONDS");
  if (more) usleep((useconds_t)atoi(more));
}

int fsync(int file) {
  static int (*plain)(int);
  if (!plain) plain = (int (*)(int))dlsym(RTLD_NEXT, "fsync");
  wait_more();
  return plain(file);
}

int fdatasync(int file) {
  static int (*plain)(int);
  if (!plain) plain = (int (*)(int))dlsym(RTLD_NEXT, "fdatasync");
  wait_more();
  return plain(file);
}
