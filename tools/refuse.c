/* Loaded before a program's own libraries (LD_PRELOAD), makes its REFUSE-th call of malloc or
   realloc fail, and with REFUSE_COUNT as many in turn, and says at its end how many calls there were and how
   many were refused. A program with threads ends by _exit, where no destructor runs. It is built without the C library's
   headers, which a machine with the toolchain may lack. */

typedef unsigned long size_t;
enum { ENOMEM = 12, SYS_exit_group = 231 };
#define NULL ((void *)0)
#define RTLD_NEXT ((void *)-1l)

void *dlsym(void *handle, const char *name);
int *__errno_location(void);
char *getenv(const char *name);
long atol(const char *text);
int dprintf(int file, const char *form, ...);
long syscall(long number, ...);

static long calls, refused, chosen = -1, count;

static long number_of(const char *name, long other) {
    const char *word = getenv(name);
    return word ? atol(word) : other;
}

static int is_refused(void) {
    if (chosen == -1) {
        count = number_of("REFUSE_COUNT", 1);
        chosen = number_of("REFUSE", 0);
    }
    long call = __atomic_add_fetch(&calls, 1, __ATOMIC_SEQ_CST);
    if (chosen == 0 || call < chosen || call >= chosen + count)
        return 0;
    __atomic_add_fetch(&refused, 1, __ATOMIC_SEQ_CST);
    *__errno_location() = ENOMEM;
    return 1;
}

void *malloc(size_t size) {
    static void *(*real)(size_t);
    if (!real)
        real = (void *(*)(size_t))dlsym(RTLD_NEXT, "malloc");
    return is_refused() ? NULL : real(size);
}

void *realloc(void *old, size_t size) {
    static void *(*real)(void *, size_t);
    if (!real)
        real = (void *(*)(void *, size_t))dlsym(RTLD_NEXT, "realloc");
    return is_refused() ? NULL : real(old, size);
}

__attribute__((destructor)) static void say(void) {
    static int said;
    if (said)
        return;
    said = 1;
    dprintf(2, "calls=%ld refused=%ld\n", calls, refused);
}

void _exit(int status) {
    say();
    syscall(SYS_exit_group, (long)status);
    __builtin_unreachable();
}
