// Counts the memory of a program that it is loaded into: LD_PRELOAD=allocations.so AFTER=N REFUSE=M PROGRAM
// At the end it writes to the error stream how many allocations there were, and by how many bytes what was held rose at most above
// what was held at the Nth. So of two runs that are alike up to there, the first tells N. Where M is not 0 the Mth allocation is
// refused, and the next one of the same thread: a growth that is refused is tried once more for less.
#define _GNU_SOURCE
#include <dlfcn.h>
#include <malloc.h>
#include <stdio.h>
#include <stdlib.h>
#include <sys/syscall.h>
#include <unistd.h>

static void *(*real_malloc)(size_t), *(*real_realloc)(void *, size_t), *(*real_aligned)(size_t, size_t);
static void (*real_free)(void *);
static long calls, held, after, refuse, base, most;

static void find(void) {
  real_malloc = dlsym(RTLD_NEXT, "malloc");
  real_realloc = dlsym(RTLD_NEXT, "realloc");
  real_aligned = dlsym(RTLD_NEXT, "aligned_alloc");
  real_free = dlsym(RTLD_NEXT, "free");
  after = getenv("AFTER") ? atol(getenv("AFTER")) : 0;
  refuse = getenv("REFUSE") ? atol(getenv("REFUSE")) : 0;
}

static int is_refused(void) {
  static __thread int again;
  if (again) {
    __atomic_add_fetch(&calls, 1, __ATOMIC_RELAXED);
    again = 0;
    return 1;
  }
  again = __atomic_add_fetch(&calls, 1, __ATOMIC_RELAXED) == refuse;
  return again;
}

static void *count(void *block) {
  held += malloc_usable_size(block);
  if (calls == after) base = most = held;
  if (held > most) most = held;
  return block;
}

void *malloc(size_t size) {
  if (!real_malloc) find();
  return is_refused() ? NULL : count(real_malloc(size));
}

void *aligned_alloc(size_t alignment, size_t size) {
  if (!real_aligned) find();
  return is_refused() ? NULL : count(real_aligned(alignment, size));
}

void *realloc(void *block, size_t size) {
  if (!real_realloc) find();
  if (is_refused()) return NULL;
  held -= malloc_usable_size(block);
  return count(real_realloc(block, size));
}

void free(void *block) {
  if (!real_free) find();
  held -= malloc_usable_size(block);
  real_free(block);
}

static void tell(void) { fprintf(stderr, "%ld %ld\n", calls, most - base); }

// A program ends by exit, or by _exit, which calls no destructor.
__attribute__((destructor)) static void at_end(void) { tell(); }

void _exit(int status) {
  tell();
  fflush(stderr);
  syscall(SYS_exit_group, status);
  __builtin_unreachable();
}
