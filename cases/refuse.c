// Loaded before a program (LD_PRELOAD): lets allocation number REFUSE_AT fail, and then creates the file
// REFUSE_MARK. It needs no header, and at run time only the C library.
typedef unsigned long size;
extern void *__libc_malloc(size), *__libc_calloc(size, size), *__libc_realloc(void *, size);
extern char *getenv(const char *);
extern long atol(const char *);
extern int creat(const char *, unsigned), close(int), *__errno_location(void);

enum { no_memory = 12 };

static _Atomic long left;

__attribute__((constructor)) static void start(void) {
    const char *at = getenv("REFUSE_AT");
    if (at) left = atol(at);
}

static int refused(void) {
    if (left <= 0 || left-- != 1) return 0;
    const char *mark = getenv("REFUSE_MARK");
    if (mark) close(creat(mark, 0644));
    *__errno_location() = no_memory;
    return 1;
}

void *malloc(size bytes) { return refused() ? 0 : __libc_malloc(bytes); }
void *calloc(size count, size bytes) { return refused() ? 0 : __libc_calloc(count, bytes); }
void *realloc(void *old, size bytes) { return refused() ? 0 : __libc_realloc(old, bytes); }
