/* Stands between the system and a program that it is loaded before (LD_PRELOAD). The environment says which call fails, each kind counted from 1,
   how much a call moves, what comes over two links, and what the clock says; where it says nothing of a call, none fails and all is moved.

     READ_FAILS, READ_MOST       the read of standard input that fails, and how many bytes one gives at most
     WRITE_FAILS, WRITE_MOST     the write to standard output that fails, and how many bytes one takes at most
     OPEN_FAILS, LOAD_FAILS      the opening of a file that fails, and the read of a file
     BUS_COMES, NET_COMES        what each receive gives, with a comma between two: hexadecimal digits, or - for nothing, as behind the last one
     BUS_ATTACH_FAILS, BUS_RECEIVE_FAILS, BUS_SEND_FAILS, and the same of NET
                                 the bind, the receive and the send that fails; such a receive takes nothing of what comes
     CLOCK                       what each reading of the monotonic clock gives, in microseconds, with a comma between two; the last one stays
     ASKED                       a file: in its lines the address of each bind, of what was sent the address and the bytes, and each call of a
                                 kind of the first three lines that comes behind one that failed

   The first socket that is bound is that of the bus, the second that of the network. Neither is bound in truth. The date is 1970, and no nap
   takes time. */
#include <arpa/inet.h>
#include <errno.h>
#include <fcntl.h>
#include <netinet/in.h>
#include <stdio.h>
#include <stdlib.h>
#include <string.h>
#include <sys/socket.h>
#include <sys/syscall.h>
#include <time.h>
#include <unistd.h>

struct link {
  const char *name, *comes, *attach_fails, *receive_fails, *send_fails;
  int descriptor;
  long attaches, receives, sends, taken;
};

static struct link links[] = {
    {"bus", "BUS_COMES", "BUS_ATTACH_FAILS", "BUS_RECEIVE_FAILS", "BUS_SEND_FAILS", .descriptor = -1},
    {"net", "NET_COMES", "NET_ATTACH_FAILS", "NET_RECEIVE_FAILS", "NET_SEND_FAILS", .descriptor = -1},
};

static int failed(int reason) {
  errno = reason;
  return -1;
}

/* The file in which is told what the program asked for, where there is one. */
static FILE *asked(void) {
  const char *name = getenv("ASKED");
  return name == NULL ? NULL : fopen(name, "a");
}

static int is_to_fail(const char *name, long number) {
  const char *failing = getenv(name);
  return failing != NULL && atol(failing) == number;
}

/* The same of calls of which none may come behind the one that fails: one that does is told. */
static int is_last(const char *name, long number) {
  const char *failing = getenv(name);
  FILE *file = failing != NULL && atol(failing) < number ? asked() : NULL;
  if (file != NULL) {
    fprintf(file, "behind %s\n", name);
    fclose(file);
  }
  return is_to_fail(name, number);
}

static size_t at_most(const char *name, size_t size) {
  const char *most = getenv(name);
  return most == NULL || strtoul(most, NULL, 10) > size ? size : strtoul(most, NULL, 10);
}

/* Where the entry of a list stands that has so many before it, or NULL. */
static const char *entry_of(const char *list, long before) {
  for (; list != NULL && before > 0; before--) {
    list = strchr(list, ',');
    if (list != NULL) list++;
  }
  return list;
}

ssize_t read(int descriptor, void *room, size_t size) {
  static long reads, loads;
  if (descriptor != STDIN_FILENO) return is_last("LOAD_FAILS", ++loads) ? failed(EIO) : syscall(SYS_read, descriptor, room, size);
  if (is_last("READ_FAILS", ++reads)) return failed(EIO);
  return syscall(SYS_read, descriptor, room, at_most("READ_MOST", size));
}

ssize_t write(int descriptor, const void *bytes, size_t size) {
  static long writes;
  if (descriptor != STDOUT_FILENO) return syscall(SYS_write, descriptor, bytes, size);
  if (is_last("WRITE_FAILS", ++writes)) return failed(EIO);
  return syscall(SYS_write, descriptor, bytes, at_most("WRITE_MOST", size));
}

/* The program makes no file, so that no mode is behind the flags. */
int open(const char *path, int flags, ...) {
  static long opens;
  return is_last("OPEN_FAILS", ++opens) ? failed(EIO) : (int)syscall(SYS_openat, AT_FDCWD, path, flags);
}

static void tell(const struct link *link, const char *what, const struct sockaddr *address, const unsigned char *bytes, size_t size) {
  const struct sockaddr_in *internet = (const struct sockaddr_in *)address;
  char host[INET_ADDRSTRLEN] = "";
  FILE *file = asked();
  if (file == NULL) return;
  inet_ntop(AF_INET, &internet->sin_addr, host, sizeof host);
  fprintf(file, "%s %s %s:%d ", link->name, what, host, ntohs(internet->sin_port));
  for (size_t place = 0; place < size; place++) fprintf(file, "%02X", bytes[place]);
  fputc('\n', file);
  fclose(file);
}

static struct link *link_of(int descriptor) {
  for (size_t place = 0; place < 2; place++)
    if (links[place].descriptor == descriptor) return &links[place];
  abort();
}

int bind(int descriptor, const struct sockaddr *address, socklen_t length) {
  struct link *link = link_of(-1);
  (void)length;
  tell(link, "listens at", address, NULL, 0);
  if (is_to_fail(link->attach_fails, ++link->attaches)) return failed(EADDRINUSE);
  link->descriptor = descriptor;
  return 0;
}

ssize_t recvfrom(int descriptor, void *room, size_t size, int flags, struct sockaddr *from, socklen_t *length) {
  struct link *link = link_of(descriptor);
  struct sockaddr_in sender = {.sin_family = AF_INET};
  (void)flags;
  if (is_to_fail(link->receive_fails, ++link->receives)) return failed(ENETDOWN);
  const char *entry = entry_of(getenv(link->comes), link->taken++);
  if (entry == NULL || *entry == '-') return failed(EAGAIN);
  size_t count = 0;
  while (count < size && sscanf(entry + 2 * count, "%2hhx", (unsigned char *)room + count) == 1) count++;
  memcpy(from, &sender, sizeof sender);
  *length = sizeof sender;
  return (ssize_t)count;
}

ssize_t sendto(int descriptor, const void *bytes, size_t size, int flags, const struct sockaddr *to, socklen_t length) {
  struct link *link = link_of(descriptor);
  (void)flags;
  (void)length;
  if (is_to_fail(link->send_fails, ++link->sends)) return failed(ENETUNREACH);
  tell(link, "sends to", to, bytes, size);
  return (ssize_t)size;
}

int clock_gettime(clockid_t clock, struct timespec *time) {
  static const char *entry;
  long microseconds = 0;
  if (clock == CLOCK_MONOTONIC) {
    const char *next = entry == NULL ? getenv("CLOCK") : entry_of(entry, 1);
    if (next != NULL) entry = next;
    if (entry != NULL) microseconds = atol(entry);
  }
  time->tv_sec = microseconds / 1000000;
  time->tv_nsec = microseconds % 1000000 * 1000;
  return 0;
}

int nanosleep(const struct timespec *asked, struct timespec *left) {
  (void)asked;
  (void)left;
  return 0;
}
