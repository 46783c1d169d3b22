// The eight C functions of Rattle's libraries libc and os that the program reaches, for 64-bit ARM Linux with the GNU C library. The kit has them for
// x86-64 alone. Each is written from its contract in those libraries, and its comment says that contract in plain words. Nothing proves this code: on
// ARM it is trusted, as the kit and the C library are.
#include <errno.h>
#include <stdbool.h>
#include <stddef.h>
#include <stdint.h>
#include <stdlib.h>
#include <sys/ioctl.h>

// The answer of a function that gets memory: whether there is any, and where it begins.
struct tried {
  bool ok;
  void *start;
};

_Static_assert(sizeof(size_t) == 8 && sizeof(struct tried) == 16, "Rattle's usize has 8 bytes, and its answer 16");
_Static_assert(_Alignof(max_align_t) % 16 == 0, "malloc and realloc align a block to 16, and so to each number that divides 16");

// An answer without memory points here, because its pointer may not be null. Nobody reads or writes this byte.
static char nothing;

static struct tried tried(void *start) {
  return start ? (struct tried){true, start} : (struct tried){false, &nothing};
}

// A block of no bytes is a block too, but malloc may answer null for it, and realloc may free it.
static size_t at_least_one(size_t size) {
  return size ? size : 1;
}

// Gets a new block of `size` bytes. `size` is less than 2^63, and may be 0. The start is a multiple of `alignment`, which divides 16. Without memory
// `ok` is false, and the pointer isn't null.
struct tried rattle_alloc(size_t size, size_t alignment) {
  (void)alignment;
  return tried(malloc(at_least_one(size)));
}

// Makes the block at `start` one of `size` bytes, which may move. Its first `kept` bytes stay as they were; `kept` is at most the old size and at most
// `size`. `size` and `alignment` are as for rattle_alloc. Without memory `ok` is false, and the block stays where it is and as it was.
struct tried rattle_realloc(void *start, size_t kept, size_t size, size_t alignment) {
  (void)kept;
  (void)alignment;
  return tried(realloc(start, at_least_one(size)));
}

// Frees a block that rattle_alloc or rattle_realloc got.
void rattle_dealloc(void *start) {
  free(start);
}

static size_t argument_count;
static char **arguments;

// The GNU C library calls a constructor with what main is called with, in a static program too.
__attribute__((constructor)) static void keep_arguments(int count, char **words) {
  argument_count = count < 0 ? 0 : (size_t)count;
  arguments = words;
}

// Answers how many arguments the program was started with, its own name among them.
size_t rattle_arg_count(void) {
  return argument_count;
}

// Puts argument `place`, counted from 0, at the start of the buffer of `room` bytes, without the 0 that ends it, and answers its length. Answers -1 if
// there is no such argument. Answers -2 if it doesn't fit, and then the buffer is full.
ptrdiff_t rattle_arg(size_t place, unsigned char *buffer, size_t room) {
  if (place >= argument_count || !arguments[place]) return -1;
  const char *argument = arguments[place];
  size_t length = 0;
  for (; argument[length]; length++) {
    if (length == room) return -2;
    buffer[length] = (unsigned char)argument[length];
  }
  return (ptrdiff_t)length;
}

// Answers the thread's errno.
int32_t rattle_errno(void) {
  return errno;
}

// Sets the thread's errno.
void rattle_set_errno(int32_t error) {
  errno = error;
}

// Sets or clears O_NONBLOCK of what `descriptor` is open on. Answers 0, or -1 with errno set.
int32_t rattle_set_nonblocking(int32_t descriptor, bool on) {
  int value = on;
  return ioctl(descriptor, FIONBIO, &value);
}
