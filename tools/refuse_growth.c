// Makes one allocation of a program fail, or all from one on. It is loaded before the C library, by
// tools/refuse_growths.py and tools/refuse_each.py, which explain it. It needs no header.
//
// REFUSE_AT is the number of the allocation, from 1 on; 0 or none refuses nothing. If REFUSE_ALL is
// set, all after it fail too. When the program ends, the number of its allocations is written to
// the file REFUSE_COUNT. Children of the program are not counted, and nothing of theirs is refused.
typedef unsigned long size_t;

extern char *getenv(const char *name);
extern int unsetenv(const char *name);
extern unsigned long strtoul(const char *text, char **end, int base);
extern int snprintf(char *text, size_t size, const char *format, ...);
extern int getpid(void);
extern int open(const char *path, int flags, ...);
extern long write(int file, const void *text, size_t count);
extern int close(int file);
extern void _exit(int status) __attribute__((noreturn));
extern int *__errno_location(void);
extern void *dlsym(void *handle, const char *name);

// The values of Linux on x86-64: ENOMEM, O_WRONLY | O_CREAT | O_TRUNC and RTLD_NEXT.
#define NO_MEMORY 12
#define NEW_FILE (1 | 0100 | 01000)
#define NEXT ((void *)-1l)

static unsigned long calls, refused_call;
static const char *count_file;
static int owner, is_all;

__attribute__((constructor)) static void begin(void) {
    const char *number = getenv("REFUSE_AT");
    refused_call = number ? strtoul(number, 0, 10) : 0;
    count_file = getenv("REFUSE_COUNT");
    is_all = getenv("REFUSE_ALL") != 0;
    owner = getpid();
    calls = 0;
    unsetenv("LD_PRELOAD");
    unsetenv("REFUSE_AT");
    unsetenv("REFUSE_COUNT");
    unsetenv("REFUSE_ALL");
}

__attribute__((destructor)) static void end(void) {
    char text[32];
    if (!count_file || getpid() != owner) return;
    int file = open(count_file, NEW_FILE, 0666);
    if (file < 0) return;
    int length = snprintf(text, sizeof text, "%lu\n", calls);
    if (write(file, text, length) != length) _exit(125);
    close(file);
}

// Counts an allocation, and returns whether it fails.
static int fails(void) {
    if (owner == 0 || getpid() != owner) return 0;
    calls++;
    if (refused_call == 0 || calls < refused_call) return 0;
    if (calls > refused_call && !is_all) return 0;
    *__errno_location() = NO_MEMORY;
    return 1;
}

static void *next(const char *name) {
    void *found = dlsym(NEXT, name);
    if (!found) _exit(125);
    return found;
}

void *malloc(size_t size) {
    static void *(*real)(size_t);
    if (!real) real = next("malloc");
    return fails() ? 0 : real(size);
}

void *realloc(void *old, size_t size) {
    static void *(*real)(void *, size_t);
    if (!real) real = next("realloc");
    return fails() ? 0 : real(old, size);
}

void *aligned_alloc(size_t alignment, size_t size) {
    static void *(*real)(size_t, size_t);
    if (!real) real = next("aligned_alloc");
    return fails() ? 0 : real(alignment, size);
}

int posix_memalign(void **made, size_t alignment, size_t size) {
    static int (*real)(void **, size_t, size_t);
    if (!real) real = next("posix_memalign");
    return fails() ? NO_MEMORY : real(made, alignment, size);
}

// dlsym of some C libraries calls calloc, so it is found by the name of its own.
extern void *__libc_calloc(size_t count, size_t size);

void *calloc(size_t count, size_t size) {
    return fails() ? 0 : __libc_calloc(count, size);
}
