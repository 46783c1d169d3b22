// Tries each C function of packaging/arm64/functions.c at its edges. The words that it is started with are the arguments that these have to read. The
// first difference is told on standard error, and ends it with 1. It is linked with --wrap for malloc, realloc and free.
#include <errno.h>
#include <fcntl.h>
#include <limits.h>
#include <stdbool.h>
#include <stddef.h>
#include <stdint.h>
#include <stdio.h>
#include <stdlib.h>
#include <string.h>
#include <sys/socket.h>
#include <unistd.h>

// As Rattle's libraries libc and os declare them: a slice is a pointer and a length.
struct tried {
  bool ok;
  unsigned char *start;
};
struct tried rattle_alloc(size_t size, size_t alignment);
struct tried rattle_realloc(void *start, size_t kept, size_t size, size_t alignment);
void rattle_dealloc(void *start);
size_t rattle_arg_count(void);
ptrdiff_t rattle_arg(size_t place, unsigned char *buffer, size_t room);
int32_t rattle_errno(void);
void rattle_set_errno(int32_t error);
int32_t rattle_set_nonblocking(int32_t descriptor, bool on);

#define EXPECT(holds) \
  do { \
    if (!(holds)) { \
      fprintf(stderr, "functions_test: line %d: it doesn't hold that %s\n", __LINE__, #holds); \
      exit(1); \
    } \
  } while (0)

// ---- memory: the C library's own functions behind a count of the blocks, and a switch that refuses; no bytes get no block, as C allows

void *__real_malloc(size_t size);
void *__real_realloc(void *block, size_t size);
void __real_free(void *block);

static bool refuses;
static long blocks;

void *__wrap_malloc(size_t size) {
  void *block = refuses || !size ? NULL : __real_malloc(size);
  if (block) blocks++;
  return block;
}

void *__wrap_realloc(void *block, size_t size) {
  EXPECT(block && size); // otherwise it gets or frees a block
  return refuses ? NULL : __real_realloc(block, size);
}

void __wrap_free(void *block) {
  if (block) blocks--;
  __real_free(block);
}

static unsigned char at(size_t place, int key) {
  return (unsigned char)(place * 7 + (size_t)key);
}

static void fill(unsigned char *start, size_t size, int key) {
  for (size_t place = 0; place < size; place++) start[place] = at(place, key);
}

static bool holds(const unsigned char *start, size_t size, int key) {
  for (size_t place = 0; place < size; place++) {
    if (start[place] != at(place, key)) return false;
  }
  return true;
}

static const size_t sizes[] = {0, 1, 2, 15, 16, 17, 24, 25, 4095, 4096, 4097, 131072, 1 << 20};
#define MANY (sizeof sizes / sizeof *sizes)

static void try_alloc(size_t alignment) {
  struct tried got[MANY];
  for (size_t each = 0; each < MANY; each++) {
    got[each] = rattle_alloc(sizes[each], alignment);
    EXPECT(got[each].ok && got[each].start && (uintptr_t)got[each].start % alignment == 0);
    fill(got[each].start, sizes[each], (int)each);
  }
  EXPECT(blocks == MANY); // also one of no bytes
  for (size_t each = 0; each < MANY; each++) {
    for (size_t other = 0; other < each; other++) EXPECT(got[each].start != got[other].start);
    EXPECT(holds(got[each].start, sizes[each], (int)each));
    rattle_dealloc(got[each].start);
  }
  EXPECT(blocks == 0);
}

// From each size to each: it grows, shrinks or stays. A third block that lies behind makes it move when it grows.
static void try_realloc(size_t alignment) {
  for (size_t from = 0; from < MANY; from++) {
    for (size_t to = 0; to < MANY; to++) {
      struct tried got = rattle_alloc(sizes[from], alignment), behind = rattle_alloc(64, 16);
      size_t kept = sizes[from] < sizes[to] ? sizes[from] : sizes[to];
      fill(got.start, sizes[from], 1);
      fill(behind.start, 64, 2);
      got = rattle_realloc(got.start, kept, sizes[to], alignment);
      EXPECT(got.ok && got.start && (uintptr_t)got.start % alignment == 0 && holds(got.start, kept, 1));
      fill(got.start, sizes[to], 3);
      EXPECT(holds(got.start, sizes[to], 3) && holds(behind.start, 64, 2) && blocks == 2);
      rattle_dealloc(got.start);
      rattle_dealloc(behind.start);
      EXPECT(blocks == 0);
    }
  }
}

static void try_refused(void) {
  size_t greatest = (size_t)1 << 63;
  struct tried got = rattle_alloc(64, 16), none;
  fill(got.start, 64, 4);
  none = rattle_alloc(greatest - 1, 1);
  EXPECT(!none.ok && none.start);
  none = rattle_realloc(got.start, 64, greatest - 1, 16);
  EXPECT(!none.ok && none.start);
  refuses = true;
  for (size_t each = 0; each < MANY; each++) {
    none = rattle_alloc(sizes[each], 8);
    EXPECT(!none.ok && none.start);
    none = rattle_realloc(got.start, sizes[each] < 64 ? sizes[each] : 64, sizes[each], 16);
    EXPECT(!none.ok && none.start);
  }
  refuses = false;
  // the block is as it was, and can still be changed and freed
  EXPECT(blocks == 1 && holds(got.start, 64, 4));
  got = rattle_realloc(got.start, 64, 128, 16);
  EXPECT(got.ok && holds(got.start, 64, 4));
  rattle_dealloc(got.start);
  EXPECT(blocks == 0);
}

// ---- arguments

// What fits, just fits, is one byte too long, or finds no room at all; what lies behind the buffer stays.
static void try_argument(size_t place, const char *word) {
  size_t length = strlen(word), rooms[] = {0, 1, length / 2, length ? length - 1 : 0, length, length + 1, length + 100};
  unsigned char *buffer = malloc(length + 101);
  if (!buffer) abort();
  for (size_t each = 0; each < sizeof rooms / sizeof *rooms; each++) {
    size_t room = rooms[each], written = length < room ? length : room;
    fill(buffer, length + 101, 5);
    ptrdiff_t answer = rattle_arg(place, buffer, room);
    EXPECT(answer == (length <= room ? (ptrdiff_t)length : -2));
    EXPECT(memcmp(buffer, word, written) == 0);
    for (size_t behind = written; behind < length + 101; behind++) EXPECT(buffer[behind] == at(behind, 5));
  }
  free(buffer);
}

static void try_arguments(int count, char **words) {
  unsigned char buffer[8];
  EXPECT(rattle_arg_count() == (size_t)count);
  for (int place = 0; place < count; place++) try_argument((size_t)place, words[place]);
  const size_t beyond[] = {(size_t)count, (size_t)count + 1, (size_t)INT_MAX + 1, SIZE_MAX};
  for (size_t each = 0; each < sizeof beyond / sizeof *beyond; each++) {
    fill(buffer, sizeof buffer, 6);
    EXPECT(rattle_arg(beyond[each], buffer, sizeof buffer) == -1 && rattle_arg(beyond[each], buffer, 0) == -1);
    EXPECT(holds(buffer, sizeof buffer, 6));
  }
}

// ---- errno, and a descriptor that doesn't wait

static void try_errno(void) {
  const int32_t errors[] = {0, EINTR, EAGAIN, INT32_MAX, -1, INT32_MIN, 0};
  for (size_t each = 0; each < sizeof errors / sizeof *errors; each++) {
    rattle_set_errno(errors[each]);
    EXPECT(rattle_errno() == errors[each] && errno == errors[each]);
  }
  errno = ENOENT;
  EXPECT(rattle_errno() == ENOENT);
  EXPECT(close(-1) == -1 && rattle_errno() == EBADF);
}

static void try_descriptor(int descriptor) {
  int before = fcntl(descriptor, F_GETFL);
  EXPECT(before >= 0 && !(before & O_NONBLOCK));
  for (int time = 0; time < 2; time++) {
    EXPECT(rattle_set_nonblocking(descriptor, true) == 0 && fcntl(descriptor, F_GETFL) == (before | O_NONBLOCK));
  }
  for (int time = 0; time < 2; time++) {
    EXPECT(rattle_set_nonblocking(descriptor, false) == 0 && fcntl(descriptor, F_GETFL) == before);
  }
}

static void try_nonblocking(void) {
  int datagrams = socket(AF_INET, SOCK_DGRAM, 0), ends[2];
  unsigned char byte;
  EXPECT(datagrams >= 0 && pipe(ends) == 0);
  try_descriptor(datagrams);
  try_descriptor(ends[0]);
  EXPECT(rattle_set_nonblocking(datagrams, true) == 0);
  EXPECT(recv(datagrams, &byte, 1, 0) == -1 && (rattle_errno() == EAGAIN || rattle_errno() == EWOULDBLOCK));
  EXPECT(close(datagrams) == 0 && close(ends[0]) == 0 && close(ends[1]) == 0);
  const int32_t bad[] = {datagrams, -1, INT32_MAX, INT32_MIN};
  for (size_t each = 0; each < sizeof bad / sizeof *bad; each++) {
    rattle_set_errno(0);
    EXPECT(rattle_set_nonblocking(bad[each], each % 2 == 0) == -1 && rattle_errno() == EBADF);
  }
}

int main(int count, char **words) {
  alarm(20); // a call that waits after all ends it
  blocks = 0; // the C library of a static program has got some before main
  for (size_t alignment = 1; alignment <= 16; alignment *= 2) {
    try_alloc(alignment);
    try_realloc(alignment);
  }
  try_refused();
  try_arguments(count, words);
  try_errno();
  try_nonblocking();
  return 0;
}
