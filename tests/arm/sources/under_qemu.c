// Stands in for a program of ARM: runs the file of its own name and .arm64 under qemu, with its own words. It is linked statically, so the loader of
// that program alone loads what LD_PRELOAD names. Its process becomes qemu's, so a signal reaches qemu. QEMU and LIBRARIES are given as it is compiled.
#include <limits.h>
#include <stdio.h>
#include <stdlib.h>
#include <string.h>
#include <unistd.h>

int main(int count, char **words) {
  static char program[PATH_MAX];
  static const char ending[] = ".arm64";
  ssize_t length = readlink("/proc/self/exe", program, sizeof program - sizeof ending);
  char **all = calloc((size_t)count + 4, sizeof *all);
  if (length < 0 || !all) return 126;
  memcpy(program + length, ending, sizeof ending);
  all[0] = QEMU;
  all[1] = "-L";
  all[2] = LIBRARIES;
  all[3] = program;
  for (int word = 1; word < count; word++) all[3 + word] = words[word];
  execv(QEMU, all);
  perror(QEMU);
  return 126;
}
