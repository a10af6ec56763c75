/* Refuses calls of a program, as a system does that has no memory or whose disk is bad. It is loaded before the
   program's libraries, and needs glibc:

       REFUSE=CALLS REFUSE_HOW=HOW REFUSE_AT=N REFUSE_TOLD=FILE LD_PRELOAD=./refuse.so PROGRAM

   CALLS are those that are counted: `memory` (malloc, calloc, realloc and their kin); `read` and `write` (these and
   their kin, where a file, a pipe or a socket is meant); `wait` (epoll_wait, poll); `accept` (accept, accept4).
   HOW says which of them are refused: `one`, the call of number N, from 1; `on`, that and each later one; `second`,
   each second one. A refused request for memory gives none; `second` interrupts a call (EINTR), the others fail it
   (EIO). With REFUSE_BYTES=1 each call of these moves one byte, but on a socket, where a short call says that no more
   is there (epoll(7)).
   FILE has 24 bytes, three numbers: how many calls were counted, how many were refused, and the descriptor of the
   first that was. */
#define _GNU_SOURCE
#include <errno.h>
#include <fcntl.h>
#include <poll.h>
#include <stdatomic.h>
#include <stdlib.h>
#include <string.h>
#include <sys/epoll.h>
#include <sys/mman.h>
#include <sys/socket.h>
#include <sys/stat.h>
#include <sys/syscall.h>
#include <sys/uio.h>
#include <unistd.h>

extern void *__libc_malloc(size_t);
extern void *__libc_calloc(size_t, size_t);
extern void *__libc_realloc(void *, size_t);
extern void *__libc_memalign(size_t, size_t);

enum calls { NONE, MEMORY, READ, WRITE, WAIT, ACCEPT };
enum how { ONE, ON, SECOND };
struct told { atomic_long counted, refused, fd; };

static enum calls refused_calls = NONE;
static enum how how = ONE;
static int in_bytes = 0;
static long at = 0;
static struct told unseen, *told = &unseen;

static int is(const char *name, const char *value) {
  const char *given = getenv(name);
  return given && !strcmp(given, value);
}

__attribute__((constructor)) static void begin(void) {
  const char *number = getenv("REFUSE_AT"), *file = getenv("REFUSE_TOLD");
  int fd = file ? open(file, O_RDWR | O_CLOEXEC) : -1;
  if (fd >= 0) {
    void *shared = mmap(NULL, sizeof *told, PROT_READ | PROT_WRITE, MAP_SHARED, fd, 0);
    if (shared != MAP_FAILED) told = shared;
    close(fd);
  }
  at = number ? atol(number) : 0;
  in_bytes = is("REFUSE_BYTES", "1");
  how = is("REFUSE_HOW", "on") ? ON : is("REFUSE_HOW", "second") ? SECOND : ONE;
  refused_calls = is("REFUSE", "memory") ? MEMORY : is("REFUSE", "read") ? READ : is("REFUSE", "write") ? WRITE
                : is("REFUSE", "wait") ? WAIT : is("REFUSE", "accept") ? ACCEPT : NONE;
}

/* Counts a call; whether it is refused. */
static int refuses(enum calls calls, int fd) {
  if (calls != refused_calls) return 0;
  long number = atomic_fetch_add(&told->counted, 1) + 1;
  int refused = how == ONE ? number == at : how == ON ? number >= at : number % 2 == 0;
  if (refused && atomic_fetch_add(&told->refused, 1) == 0) atomic_store(&told->fd, fd);
  if (refused) errno = calls == MEMORY ? ENOMEM : how == SECOND ? EINTR : EIO;
  return refused;
}

/* What kind of file it is: none for what wakes a thread, which is neither a file nor a pipe nor a socket. */
static mode_t kind(int fd) {
  struct stat found;
  return fstat(fd, &found) ? 0 : found.st_mode & S_IFMT;
}

static int refuses_move(enum calls calls, int fd) { return calls == refused_calls && kind(fd) && refuses(calls, fd); }

static int moves_a_byte(enum calls calls, int fd) {
  return in_bytes && calls == refused_calls && kind(fd) && kind(fd) != S_IFSOCK;
}

/* How many of the bytes are moved. */
static size_t few(enum calls calls, int fd, size_t count) { return count && moves_a_byte(calls, fd) ? 1 : count; }

void *malloc(size_t size) { return refuses(MEMORY, -1) ? NULL : __libc_malloc(size); }

void *calloc(size_t count, size_t size) { return refuses(MEMORY, -1) ? NULL : __libc_calloc(count, size); }

void *realloc(void *block, size_t size) { return refuses(MEMORY, -1) ? NULL : __libc_realloc(block, size); }

void *memalign(size_t to, size_t size) { return refuses(MEMORY, -1) ? NULL : __libc_memalign(to, size); }

void *aligned_alloc(size_t to, size_t size) { return memalign(to, size); }

int posix_memalign(void **block, size_t to, size_t size) {
  void *found = memalign(to, size);
  if (!found) return ENOMEM;
  *block = found;
  return 0;
}

ssize_t read(int fd, void *bytes, size_t count) {
  return refuses_move(READ, fd) ? -1 : syscall(SYS_read, fd, bytes, few(READ, fd, count));
}

ssize_t write(int fd, const void *bytes, size_t count) {
  return refuses_move(WRITE, fd) ? -1 : syscall(SYS_write, fd, bytes, few(WRITE, fd, count));
}

/* Programs of the kit call it so too. */
ssize_t __write(int fd, const void *bytes, size_t count) { return write(fd, bytes, count); }

/* Where bytes are moved one at a time, the first that is there. */
static ssize_t moved(enum calls calls, long number, int fd, const struct iovec *parts, int count) {
  if (refuses_move(calls, fd)) return -1;
  if (!moves_a_byte(calls, fd)) return syscall(number, fd, parts, count);
  for (int i = 0; i < count; i++)
    if (parts[i].iov_len) return syscall(number, fd, &(struct iovec){parts[i].iov_base, 1}, 1);
  return 0;
}

ssize_t readv(int fd, const struct iovec *parts, int count) { return moved(READ, SYS_readv, fd, parts, count); }

ssize_t writev(int fd, const struct iovec *parts, int count) { return moved(WRITE, SYS_writev, fd, parts, count); }

ssize_t recvfrom(int fd, void *restrict bytes, size_t count, int flags, struct sockaddr *restrict from,
                 socklen_t *restrict length) {
  return refuses_move(READ, fd) ? -1 : syscall(SYS_recvfrom, fd, bytes, count, flags, from, length);
}

ssize_t recv(int fd, void *bytes, size_t count, int flags) { return recvfrom(fd, bytes, count, flags, NULL, NULL); }

ssize_t sendto(int fd, const void *bytes, size_t count, int flags, const struct sockaddr *to, socklen_t length) {
  return refuses_move(WRITE, fd) ? -1 : syscall(SYS_sendto, fd, bytes, count, flags, to, length);
}

ssize_t send(int fd, const void *bytes, size_t count, int flags) { return sendto(fd, bytes, count, flags, NULL, 0); }

int epoll_wait(int fd, struct epoll_event *events, int most, int timeout) {
  return refuses(WAIT, fd) ? -1 : syscall(SYS_epoll_pwait, fd, events, most, timeout, NULL, 8);
}

int poll(struct pollfd *fds, nfds_t count, int timeout) {
  if (refuses(WAIT, -1)) return -1;
  struct timespec time = {timeout / 1000, timeout % 1000 * 1000000L};
  return syscall(SYS_ppoll, fds, count, timeout < 0 ? NULL : &time, NULL, 8);
}

int accept4(int fd, struct sockaddr *from, socklen_t *length, int flags) {
  return refuses(ACCEPT, fd) ? -1 : syscall(SYS_accept4, fd, from, length, flags);
}

int accept(int fd, struct sockaddr *from, socklen_t *length) { return accept4(fd, from, length, 0); }
