// A library that is loaded with a program (LD_PRELOAD). It counts the requests for memory that the program makes of malloc, calloc and realloc, and refuses the
// one whose number the variable REFUSED holds, counted from 1; 0 refuses none. The count stands in the first eight bytes of the file that COUNTED names.
#include <errno.h>
#include <fcntl.h>
#include <stddef.h>
#include <stdint.h>
#include <stdlib.h>
#include <sys/mman.h>
#include <unistd.h>

extern void *__libc_malloc(size_t size);
extern void *__libc_calloc(size_t count, size_t size);
extern void *__libc_realloc(void *block, size_t size);

static uint64_t refused;
// in the file, so that the count stays however the program ends
static volatile uint64_t *requests;

__attribute__((constructor)) static void begin(void) {
  const char *number = getenv("REFUSED"), *name = getenv("COUNTED");
  int file = name ? open(name, O_RDWR | O_CREAT, 0600) : -1;
  if (number == NULL || file < 0 || ftruncate(file, sizeof *requests) != 0) _exit(99);
  void *place = mmap(NULL, sizeof *requests, PROT_READ | PROT_WRITE, MAP_SHARED, file, 0);
  if (place == MAP_FAILED) _exit(99);
  close(file);
  refused = strtoull(number, NULL, 10);
  requests = place;
  *requests = 0;
}

static int refuses(void) {
  if (requests == NULL || ++*requests != refused) return 0;
  errno = ENOMEM;
  return 1;
}

void *malloc(size_t size) { return refuses() ? NULL : __libc_malloc(size); }
void *calloc(size_t count, size_t size) { return refuses() ? NULL : __libc_calloc(count, size); }
void *realloc(void *block, size_t size) { return refuses() ? NULL : __libc_realloc(block, size); }
