/* Faults that attack.py puts between the program and the system: a library that is loaded before the C library.
 *
 * FAULTS names a file of eight numbers that the program and attack.py share. The library counts the calls in the first five; the number
 * of the call to fail, from 0, stands in the environment, and so do the greatest number of bytes a call moves and whether all later calls
 * fail too.
 *
 *   FAULTS_READ, FAULTS_WRITE, FAULTS_TELL   reads of standard input, writes of standard output and standard error
 *   FAULTS_MEMORY                            allocations and mappings of memory
 *   FAULTS_THREAD                            threads
 *   FAULTS_MOST                              how many bytes a call of the first three moves at most
 *   FAULTS_ON                                set: what fails goes on failing
 */
#define _GNU_SOURCE
#include <dlfcn.h>
#include <errno.h>
#include <fcntl.h>
#include <pthread.h>
#include <stdatomic.h>
#include <stdlib.h>
#include <sys/mman.h>
#include <sys/syscall.h>
#include <sys/uio.h>
#include <unistd.h>

enum { READ, WRITE, TELL, MEMORY, THREAD, KINDS };

static const char *const names[KINDS] = {"FAULTS_READ", "FAULTS_WRITE", "FAULTS_TELL", "FAULTS_MEMORY", "FAULTS_THREAD"};
static atomic_ulong unread[KINDS];
static atomic_ulong *counts = unread;
static long fails[KINDS] = {-1, -1, -1, -1, -1};
static long most = -1;
static int on, begun;

extern void *__libc_malloc(size_t);
extern void *__libc_calloc(size_t, size_t);
extern void *__libc_realloc(void *, size_t);
extern void *__libc_memalign(size_t, size_t);

static long number(const char *name) {
  const char *text = getenv(name);
  return text ? atol(text) : -1;
}

__attribute__((constructor)) static void begin(void) {
  const char *path = getenv("FAULTS");
  int file = path ? open(path, O_RDWR) : -1;
  if (file < 0)
    return;
  void *shared = mmap(0, 4096, PROT_READ | PROT_WRITE, MAP_SHARED, file, 0);
  close(file);
  if (shared == MAP_FAILED)
    return;
  counts = shared;
  for (int kind = 0; kind < KINDS; kind++)
    fails[kind] = number(names[kind]);
  most = number("FAULTS_MOST");
  on = getenv("FAULTS_ON") != 0;
  begun = 1;
}

/* Counts a call, and says whether it has to fail. */
static int must_fail(int kind) {
  if (!begun)
    return 0;
  long call = (long)atomic_fetch_add(&counts[kind], 1);
  return fails[kind] >= 0 && (call == fails[kind] || (on && call > fails[kind]));
}

static size_t at_most(size_t count) { return most > 0 && count > (size_t)most ? (size_t)most : count; }

ssize_t read(int file, void *bytes, size_t count) {
  if (file == 0 && must_fail(READ))
    return errno = EIO, -1;
  return syscall(SYS_read, file, bytes, file == 0 ? at_most(count) : count);
}

ssize_t write(int file, const void *bytes, size_t count) {
  if ((file == 1 && must_fail(WRITE)) || (file == 2 && must_fail(TELL)))
    return errno = EIO, -1;
  return syscall(SYS_write, file, bytes, file == 1 || file == 2 ? at_most(count) : count);
}

ssize_t readv(int file, const struct iovec *parts, int count) { return count ? read(file, parts[0].iov_base, parts[0].iov_len) : 0; }

ssize_t writev(int file, const struct iovec *parts, int count) { return count ? write(file, parts[0].iov_base, parts[0].iov_len) : 0; }

static void *refused(void) { return errno = ENOMEM, (void *)0; }

void *malloc(size_t size) { return must_fail(MEMORY) ? refused() : __libc_malloc(size); }

void *calloc(size_t count, size_t size) { return must_fail(MEMORY) ? refused() : __libc_calloc(count, size); }

void *realloc(void *old, size_t size) { return must_fail(MEMORY) ? refused() : __libc_realloc(old, size); }

void *memalign(size_t align, size_t size) { return must_fail(MEMORY) ? refused() : __libc_memalign(align, size); }

void *aligned_alloc(size_t align, size_t size) { return memalign(align, size); }

int posix_memalign(void **made, size_t align, size_t size) { return (*made = memalign(align, size)) ? 0 : ENOMEM; }

void *mmap(void *at, size_t size, int protection, int flags, int file, off_t offset) {
  if (must_fail(MEMORY))
    return errno = ENOMEM, MAP_FAILED;
  return (void *)syscall(SYS_mmap, at, size, protection, flags, file, offset);
}

void *mmap64(void *at, size_t size, int protection, int flags, int file, off_t offset) { return mmap(at, size, protection, flags, file, offset); }

int pthread_create(pthread_t *thread, const pthread_attr_t *how, void *(*work)(void *), void *with) {
  static int (*made)(pthread_t *, const pthread_attr_t *, void *(*)(void *), void *);
  if (!made)
    made = dlsym(RTLD_NEXT, "pthread_create");
  return must_fail(THREAD) ? EAGAIN : made(thread, how, work, with);
}
