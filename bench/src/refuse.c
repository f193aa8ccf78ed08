// Stands before the C library's allocator for one program (LD_PRELOAD), and refuses requests for memory that the program itself makes by
// malloc or realloc: the Nth alone where REFUSE is N, and each behind it too where REFUSE is N.. with two dots. Those of the C library pass,
// and are not counted. At the end it writes how many requests there were, in decimal, to the file that REFUSE_COUNT names.
#define _GNU_SOURCE
#include <errno.h>
#include <fcntl.h>
#include <link.h>
#include <stdio.h>
#include <stdlib.h>
#include <unistd.h>

extern void *__libc_malloc(size_t), *__libc_realloc(void *, size_t);

static unsigned long first, last, requests;
static ElfW(Addr) from, to;

// The first object is the program itself; its code lies from `from` to `to`.
static int take(struct dl_phdr_info *object, size_t size, void *unused) {
  (void)size; (void)unused;
  for (int i = 0; i < object->dlpi_phnum; i++)
    if (object->dlpi_phdr[i].p_type == PT_LOAD && (object->dlpi_phdr[i].p_flags & PF_X)) {
      from = object->dlpi_addr + object->dlpi_phdr[i].p_vaddr;
      to = from + object->dlpi_phdr[i].p_memsz;
    }
  return 1;
}

__attribute__((constructor)) static void begin(void) {
  char *n = getenv("REFUSE");
  if (write(-1, "begin", 5) >= 0) _exit(99); // for a trace: what the program does begins here
  first = last = n ? strtoul(n, &n, 10) : 0;
  if (n && *n == '.') last = -1UL;
  dl_iterate_phdr(take, 0);
}

__attribute__((destructor)) static void end(void) {
  char text[24], *path = getenv("REFUSE_COUNT");
  int file = path ? open(path, O_WRONLY | O_CREAT | O_TRUNC | O_CLOEXEC, 0600) : -1;
  if (file < 0 || write(file, text, snprintf(text, sizeof text, "%lu", requests)) < 0) _exit(99);
}

static int gives(void *caller) {
  ElfW(Addr) at = (ElfW(Addr))caller;
  if (at < from || at >= to || ++requests < first || requests > last) return 1;
  errno = ENOMEM;
  return 0;
}

void *malloc(size_t size) { return gives(__builtin_return_address(0)) ? __libc_malloc(size) : 0; }
void *realloc(void *old, size_t size) { return gives(__builtin_return_address(0)) ? __libc_realloc(old, size) : 0; }
