// Loaded before a program (LD_PRELOAD): logs its calls on files in the file FAULTS_LOG, one per line, and lets call number
// FAULTS_AT end as FAULTS_KIND says: as a short read or write, interrupted by a signal, with an error of the device, or without
// space left. Or another appends a record to journal.csv just before that call, or puts a copy of it in its place. It needs no header,
// and at run time only the C library.
typedef unsigned long size;
extern long syscall(long, ...), atol(const char *);
extern char *getenv(const char *);
extern int *__errno_location(void);

enum { sys_read = 0, sys_write = 1, sys_open = 2, sys_close = 3, sys_flock = 73, sys_fsync = 74, sys_fdatasync = 75 };
enum { sys_ftruncate = 77, sys_rename = 82, sys_unlink = 87, sys_readlink = 89, sys_fchmod = 91 };
enum { append_made = 02101, all_may = 0644 };

static long calls;

// Appends a text to the log.
static void tell(const char *text, size length) {
    const char *log = getenv("FAULTS_LOG");
    long file = log ? syscall(sys_open, log, append_made, all_may) : -1;
    if (file < 0) return;
    syscall(sys_write, file, text, length);
    syscall(sys_close, file);
}

static size put_word(char *line, size at, const char *word) {
    while (*word) line[at++] = *word++;
    return at;
}

static size put_number(char *line, size at, long number) {
    char digits[24];
    size count = 0;
    if (number < 0) line[at++] = '-', number = -number;
    do digits[count++] = (char)('0' + number % 10); while (number /= 10);
    while (count) line[at++] = digits[--count];
    return at;
}

// The last part of a path.
static const char *last_part(const char *path) {
    const char *last = path;
    for (; *path; path++)
        if (*path == '/') last = path + 1;
    return last;
}

// The name of an open file: a number for a standard stream, otherwise the last part of its path.
static size put_file(char *line, size at, long file) {
    char link[40], path[4100];
    if (file <= 2) return put_number(line, at, file);
    size end = put_number(link, put_word(link, 0, "/proc/self/fd/"), file);
    link[end] = 0;
    long length = syscall(sys_readlink, link, path, sizeof path - 1);
    path[length < 0 ? 0 : length] = 0;
    // Behind the path of a file without a name stands a remark.
    for (char *end = path; *end; end++)
        if (*end == ' ') *end = 0;
    return put_word(line, at, last_part(path));
}

// Logs a call: its name, its file, its result, and in hexadecimal the bytes that were written.
static void told(const char *name, long file, const char *path, long result, const char *bytes) {
    static char line[30000];
    size at = put_word(line, 0, name);
    line[at++] = ' ';
    at = path ? put_word(line, at, last_part(path)) : put_file(line, at, file);
    line[at++] = ' ';
    at = put_number(line, at, result);
    line[at++] = ' ';
    for (long i = 0; bytes && i < result && i < 9000; i++) {
        line[at++] = "0123456789abcdef"[(bytes[i] >> 4) & 15];
        line[at++] = "0123456789abcdef"[bytes[i] & 15];
    }
    line[at++] = '\n';
    tell(line, at);
}

// Appends a record to the journal, as another process could.
static void append_other(void) {
    static const char record[] = "AP,FLT,ZZ9,5\n";
    long file = syscall(sys_open, "journal.csv", append_made, all_may);
    if (file < 0) return;
    syscall(sys_write, file, record, sizeof record - 1);
    syscall(sys_close, file);
}

// Puts a copy of the journal in its place, as another process could.
static void put_other(void) {
    static char bytes[9000];
    long file = syscall(sys_open, "journal.csv", 0, 0);
    if (file < 0) return;
    long length = syscall(sys_read, file, bytes, sizeof bytes);
    syscall(sys_close, file);
    file = syscall(sys_open, "journal.other", append_made, all_may);
    if (file < 0) return;
    syscall(sys_write, file, bytes, length);
    syscall(sys_close, file);
    syscall(sys_rename, "journal.other", "journal.csv");
}

// How this call ends: 0 as usual, -1 short, otherwise with this error.
static long fault(void) {
    const char *at = getenv("FAULTS_AT"), *kind = getenv("FAULTS_KIND");
    calls++;
    if (!at || !kind || calls != atol(at)) return 0;
    if (kind[0] == 'a') return append_other(), 0;
    if (kind[0] == 'r') return put_other(), 0;
    return kind[0] == 's' ? -1 : atol(kind);
}

static long refused(long error) {
    *__errno_location() = (int)error;
    return -1;
}

long write(int file, const char *bytes, size count) {
    long how = fault();
    if (how < 0 && count > 1) count /= 2;
    long result = how > 0 ? refused(how) : syscall(sys_write, (long)file, bytes, count);
    told("write", file, 0, result, bytes);
    return result;
}

long read(int file, char *bytes, size count) {
    long how = fault();
    if (how < 0 && count > 1) count = 1;
    long result = how > 0 ? refused(how) : syscall(sys_read, (long)file, bytes, count);
    told("read", file, 0, result, 0);
    return result;
}

static int plain(const char *name, long number, long first, long second, const char *path) {
    long how = fault();
    long result = how > 0 ? refused(how) : syscall(number, first, second);
    told(name, first, path, result, 0);
    return (int)result;
}

int open(const char *path, int flags, unsigned mode) {
    long how = fault();
    long result = how > 0 ? refused(how) : syscall(sys_open, path, (long)flags, (long)mode);
    told("open", 0, path, result, 0);
    return (int)result;
}

int fsync(int file) { return plain("sync", sys_fsync, file, 0, 0); }
int fdatasync(int file) { return plain("sync", sys_fdatasync, file, 0, 0); }
int ftruncate(int file, long length) { return plain("cut", sys_ftruncate, file, length, 0); }
int fchmod(int file, unsigned mode) { return plain("mode", sys_fchmod, file, mode, 0); }
int flock(int file, int how) { return plain("lock", sys_flock, file, how, 0); }
int rename(const char *from, const char *to) { return plain("rename", sys_rename, (long)from, (long)to, to); }
int unlink(const char *path) { return plain("remove", sys_unlink, (long)path, 0, path); }
