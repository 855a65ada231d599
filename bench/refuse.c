/* A library to be preloaded: it counts the calls of malloc, calloc and realloc, of read on descriptor 0, of write on
   descriptor 1 and of pthread_create, and lets one of them fail, or all from one on. What it counted it writes to the
   file COUNTED when the program ends. FAIL is the kind ("alloc", "read", "write", "thread"), AT the number of the call,
   from 1, and FROM is set where all later ones fail too. SHORT lets reads and writes move one byte at a time. Threads
   may call beside each other, so the numbers are taken by atomic steps. */
#define _GNU_SOURCE
#include <dlfcn.h>
#include <errno.h>
#include <pthread.h>
#include <stdio.h>
#include <stdlib.h>
#include <string.h>
#include <sys/syscall.h>
#include <unistd.h>

enum { KINDS = 4 };
static unsigned long counts[KINDS], at;
static const char *const kinds[KINDS] = {"alloc", "read", "write", "thread"};
static int failing = -1, from;

/* Before main, while there is one thread; what is called earlier counts and does not fail. */
__attribute__((constructor)) static void begin(void) {
  const char *fail = getenv("FAIL"), *number = getenv("AT");
  for (int k = 0; fail && number && k < KINDS; k++)
    if (!strcmp(fail, kinds[k])) failing = k, at = strtoul(number, 0, 10);
  from = getenv("FROM") != 0;
}

static int fails(int kind) {
  unsigned long number = __atomic_add_fetch(&counts[kind], 1, __ATOMIC_SEQ_CST);
  return kind == failing && (number == at || (from && number > at));
}

extern void *__libc_malloc(size_t), *__libc_calloc(size_t, size_t), *__libc_realloc(void *, size_t);

void *malloc(size_t size) { return fails(0) ? (errno = ENOMEM, NULL) : __libc_malloc(size); }
void *calloc(size_t many, size_t size) { return fails(0) ? (errno = ENOMEM, NULL) : __libc_calloc(many, size); }
void *realloc(void *old, size_t size) { return fails(0) ? (errno = ENOMEM, NULL) : __libc_realloc(old, size); }

ssize_t read(int file, void *into, size_t size) {
  static ssize_t (*real)(int, void *, size_t);
  if (!real) real = (ssize_t(*)(int, void *, size_t))dlsym(RTLD_NEXT, "read");
  if (file != 0) return real(file, into, size);
  if (fails(1)) return errno = EIO, -1;
  return real(file, into, getenv("SHORT") && size > 1 ? 1 : size);
}

ssize_t write(int file, const void *bytes, size_t size) {
  static ssize_t (*real)(int, const void *, size_t);
  if (!real) real = (ssize_t(*)(int, const void *, size_t))dlsym(RTLD_NEXT, "write");
  if (file != 1) return real(file, bytes, size);
  if (fails(2)) return errno = EIO, -1;
  return real(file, bytes, getenv("SHORT") && size > 1 ? 1 : size);
}

int pthread_create(pthread_t *thread, const pthread_attr_t *attr, void *(*start)(void *), void *with) {
  static int (*real)(pthread_t *, const pthread_attr_t *, void *(*)(void *), void *);
  if (!real) real = (int (*)(pthread_t *, const pthread_attr_t *, void *(*)(void *), void *))dlsym(RTLD_NEXT, "pthread_create");
  return fails(3) ? EAGAIN : real(thread, attr, start, with);
}

__attribute__((destructor)) static void tell(void) {
  const char *name = getenv("COUNTED");
  FILE *file = name ? fopen(name, "w") : 0;
  if (file) fprintf(file, "%lu %lu %lu %lu\n", counts[0], counts[1], counts[2], counts[3]), fclose(file);
}

/* A program may end without the destructors. */
void _exit(int status) {
  tell();
  syscall(SYS_exit_group, status);
  __builtin_unreachable();
}
