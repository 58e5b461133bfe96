// A library for LD_PRELOAD that makes one allocation of a program fail: the one whose number the variable REFUSED has,
// counted from 1. It reports that on standard error. If the program ends by itself with memory that was never freed, it
// reports that there too. The library is not part of a crate: tests/memory/refuse_each and tests/cases/run build it, and load it into
// programs and tests that were built without the address sanitizer.
//
// For test_calls it counts the allocations of each call. A request for BEGINS + N bytes says that a call begins, and that
// its Nth allocation is to fail, or none if N is 0. Of the requests for MADE + N bytes that follow, only the one in which N
// is the number of allocations of the call succeeds. So the program learns that number.
//
// For test_memory a request for NOTES bytes notes how many blocks and bytes are held, and a request for SAME bytes succeeds only if as
// many are held again. If the variable TELLS_PEAK is there, the library reports at the end how much memory was resident at most.
//
// It names what it takes from the C library itself, so that the toolchain's clang builds it without that library's headers.
typedef unsigned long size_t;
enum { ENOMEM = 12 };
extern char *getenv(const char *);
extern int *__errno_location(void);
extern int snprintf(char *, size_t, const char *, ...);
extern long atol(const char *), write(int, const void *, size_t), read(int, void *, size_t);
extern int open(const char *, int, ...);
extern char *strstr(const char *, const char *);
extern size_t malloc_usable_size(void *);
extern void *dlsym(void *, const char *);

#define errno (*__errno_location())
#define NULL ((void *)0)
#define RTLD_NEXT ((void *)-1)

static void *(*asks)(size_t);
static void *(*asks_again)(void *, size_t);
static void (*gives_back)(void *);
static long refused, requests, held, bytes;

enum { BEGINS = 1000000, MADE = 2000000, MOST = 100, NOTES = 3000000, SAME = 3000001 };
static long made, refused_in_call, noted_held, noted_bytes;
static int is_in_call;

static void say(const char *text, long number) {
  char line[80];
  (void)!write(2, line, snprintf(line, sizeof line, text, number));
}

__attribute__((constructor)) static void begin(void) {
  const char *number = getenv("REFUSED");
  asks = dlsym(RTLD_NEXT, "malloc");
  asks_again = dlsym(RTLD_NEXT, "realloc");
  gives_back = dlsym(RTLD_NEXT, "free");
  requests = held = bytes = 0;
  refused = number ? atol(number) : 0;
}

__attribute__((destructor)) static void end(void) {
  if (held > 0)
    say("%ld blocks of memory were never freed\n", held);
  if (!getenv("TELLS_PEAK"))
    return;
  static char text[8192];
  int file = open("/proc/self/status", 0);
  if (file < 0 || read(file, text, sizeof text - 1) <= 0)
    return;
  const char *peak = strstr(text, "VmHWM:");
  if (peak)
    say("%ld kB were resident at most\n", atol(peak + 6));
}

// Returns whether a request fails because test_calls counts the allocations of a call, or lets one of them fail.
static int is_refused_in_call(size_t size) {
  if (size >= BEGINS && size < BEGINS + MOST) {
    made = 0;
    refused_in_call = size - BEGINS;
    is_in_call = 1;
    return 0;
  }
  if (size == NOTES) {
    noted_held = held;
    noted_bytes = bytes;
    return 0;
  }
  if (size == SAME)
    return held != noted_held || bytes != noted_bytes;
  if (is_in_call && size >= MADE && size < MADE + MOST) {
    is_in_call = made != (long)size - MADE;
    return is_in_call;
  }
  return is_in_call && ++made == refused_in_call;
}

// Returns whether this request is to fail. Requests of the loader, before the program begins, do not count.
static int is_refused(size_t size) {
  if (is_refused_in_call(size)) {
    errno = ENOMEM;
    return 1;
  }
  if (!refused || ++requests != refused)
    return 0;
  say("allocation %ld failed\n", refused);
  errno = ENOMEM;
  return 1;
}

void *malloc(size_t size) {
  if (!asks)
    begin();
  if (is_refused(size))
    return NULL;
  void *block = asks(size);
  held += block != NULL;
  bytes += malloc_usable_size(block);
  return block;
}

void *realloc(void *block, size_t size) {
  if (!asks_again)
    begin();
  if (is_refused(size))
    return NULL;
  long was = malloc_usable_size(block);
  void *moved = asks_again(block, size);
  held += !block && moved;
  bytes += moved ? (long)malloc_usable_size(moved) - was : 0;
  return moved;
}

void free(void *block) {
  if (!gives_back)
    begin();
  held -= block != NULL;
  bytes -= malloc_usable_size(block);
  gives_back(block);
}
