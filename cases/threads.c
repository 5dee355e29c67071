// Loaded before a program (LD_PRELOAD): for each thread that the program starts, appends a byte to the file THREADS. It
// needs no header, and at run time only the C library.
extern char *getenv(const char *);
extern void *dlsym(void *, const char *);
extern int open(const char *, int, ...), close(int);
extern long write(int, const void *, unsigned long);

enum { to_append = 02001 };

static void *const next_library = (void *)-1l;

static void note(void) {
    const char *path = getenv("THREADS");
    int file = path ? open(path, to_append) : -1;
    if (file < 0) return;
    (void)!write(file, "\n", 1);
    close(file);
}

int pthread_create(void *thread, const void *attributes, void *(*run)(void *), void *argument) {
    int (*create)(void *, const void *, void *(*)(void *), void *) = dlsym(next_library, "pthread_create");
    note();
    return create(thread, attributes, run, argument);
}
