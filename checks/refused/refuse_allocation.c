/* Preloaded before a program's allocator: makes allocations fail, and reports each one.
 *
 * ALLOCATION=N      the Nth allocation fails, from 1
 * ALLOCATION=marked every allocation after the first mark fails
 * ALLOCATION=counted none fails; each mark writes to file descriptor F how many bytes were requested since the last mark
 * ALLOCATION_FD=F   writes a byte to file descriptor F for each failed allocation
 *
 * An allocation is a call of malloc, calloc, realloc or of a function for aligned memory. One of 16,777,213 bytes is a mark, which is not
 * counted. No header is needed and nothing is linked, so any C compiler for the C library of the programs builds it. */

typedef unsigned long size;

extern void *__libc_malloc(size bytes);
extern void *__libc_calloc(size count, size bytes);
extern void *__libc_realloc(void *old, size bytes);
extern void *__libc_memalign(size align, size bytes);
extern char *getenv(const char *name);
extern long write(int file, const void *bytes, size count);
extern int *__errno_location(void);

enum { OUT_OF_MEMORY = 12, MARK = 16777213 };

static unsigned long seen, asked;
static int is_marked;

static unsigned long number(const char *text) {
  unsigned long value = 0;
  while (text && *text >= '0' && *text <= '9')
    value = 10 * value + (unsigned long)(*text++ - '0');
  return value;
}

/* Counts the bytes requested, and reports them at a mark. */
static void count(size bytes) {
  char text[24];
  size first = sizeof text, value;
  if (bytes != MARK) {
    __atomic_add_fetch(&asked, bytes, __ATOMIC_SEQ_CST);
    return;
  }
  value = __atomic_exchange_n(&asked, 0, __ATOMIC_SEQ_CST);
  text[--first] = '\n';
  do
    text[--first] = (char)('0' + value % 10);
  while (value /= 10);
  write((int)number(getenv("ALLOCATION_FD")), text + first, sizeof text - first);
}

/* Whether this allocation should fail. */
static int is_refused(size bytes) {
  const char *wanted = getenv("ALLOCATION");
  if (!wanted)
    return 0;
  if (*wanted == 'c') {
    count(bytes);
    return 0;
  }
  if (*wanted == 'm') {
    int refused = __atomic_load_n(&is_marked, __ATOMIC_SEQ_CST);
    if (bytes == MARK)
      __atomic_store_n(&is_marked, 1, __ATOMIC_SEQ_CST);
    if (!refused)
      return 0;
  } else if (bytes == MARK || __atomic_add_fetch(&seen, 1, __ATOMIC_SEQ_CST) != number(wanted)) {
    return 0;
  }
  write((int)number(getenv("ALLOCATION_FD")), "x", 1);
  *__errno_location() = OUT_OF_MEMORY;
  return 1;
}

void *malloc(size bytes) { return is_refused(bytes) ? 0 : __libc_malloc(bytes); }

void *calloc(size count, size bytes) { return is_refused(count * bytes) ? 0 : __libc_calloc(count, bytes); }

void *realloc(void *old, size bytes) { return is_refused(bytes) ? 0 : __libc_realloc(old, bytes); }

void *memalign(size align, size bytes) { return is_refused(bytes) ? 0 : __libc_memalign(align, bytes); }

void *aligned_alloc(size align, size bytes) { return memalign(align, bytes); }

int posix_memalign(void **made, size align, size bytes) {
  void *found = memalign(align, bytes);
  if (!found)
    return OUT_OF_MEMORY;
  *made = found;
  return 0;
}
