/* Refuses one allocation of the program that it is loaded into (LD_PRELOAD): the one whose number REFUSED says, counted
   from 1 over all threads. It then says so on standard error.
   It declares what it calls by itself, so that a C library's headers are not needed. */

typedef unsigned long size_t;

extern void *__libc_malloc(size_t size);
extern void *__libc_calloc(size_t count, size_t size);
extern void *__libc_realloc(void *old, size_t size);
extern void *__libc_memalign(size_t alignment, size_t size);
extern int *__errno_location(void);
extern char *getenv(const char *name);
extern long strtol(const char *text, char **end, int base);
extern long write(int file, const void *bytes, size_t count);

/* The number of the error "out of memory". */
static const int no_memory = 12;

static const char said[] = "memory is refused\n";

/* How often memory was asked for. */
static long asked;

/* Which time it is refused, and -1 before that was read: a library that is loaded so early finds no environment when it
   begins. */
static long refused = -1;

/* Whether this time it is refused. */
static int is_refused(void) {
  if (refused < 0) {
    const char *text = getenv("REFUSED");
    refused = text ? strtol(text, 0, 10) : 0;
  }
  if (__atomic_add_fetch(&asked, 1, __ATOMIC_SEQ_CST) != refused) {
    return 0;
  }
  write(2, said, sizeof said - 1);
  *__errno_location() = no_memory;
  return 1;
}

void *malloc(size_t size) { return is_refused() ? 0 : __libc_malloc(size); }

void *calloc(size_t count, size_t size) { return is_refused() ? 0 : __libc_calloc(count, size); }

void *realloc(void *old, size_t size) { return is_refused() ? 0 : __libc_realloc(old, size); }

void *memalign(size_t alignment, size_t size) { return is_refused() ? 0 : __libc_memalign(alignment, size); }

void *aligned_alloc(size_t alignment, size_t size) { return memalign(alignment, size); }

int posix_memalign(void **found, size_t alignment, size_t size) {
  void *made = memalign(alignment, size);
  if (!made) {
    return no_memory;
  }
  *found = made;
  return 0;
}
