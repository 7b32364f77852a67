/* Loaded before a program's own libraries (LD_PRELOAD), makes write take at most MOST bytes of standard
   output at once, and when it has taken ROOM in all, fail once with the errno FAULT, ENOSPC where it isn't
   told, or take nothing where that is 0; asked again it takes all. And makes read give at most READS bytes
   of standard input at once, and at its end fail once with the errno READ_FAULT, where these are told. It is
   built without the C library's headers, which a machine with the toolchain may lack. */

typedef unsigned long size_t;
enum { INPUT = 0, OUTPUT = 1, ENOSPC = 28, SYS_read = 0, SYS_write = 1 };
#define ALL (~0ul >> 1)

int *__errno_location(void);
char *getenv(const char *name);
long atol(const char *text);
long syscall(long number, ...);

static long most = -1, room, reads = -1, read_fault;

static long number(const char *name, long otherwise) {
    const char *word = getenv(name);
    return word ? atol(word) : otherwise;
}

static long failed(long fault) {
    if (fault == 0)
        return 0;
    *__errno_location() = (int)fault;
    return -1;
}

long write(int file, const void *bytes, size_t count) {
    long taken = (long)count;
    if (file != OUTPUT)
        return syscall(SYS_write, file, bytes, count);
    if (most == -1) {
        most = number("MOST", ALL);
        room = number("ROOM", ALL);
    }
    if (taken > most)
        taken = most;
    if (taken > room)
        taken = room;
    if (taken == 0 && count != 0) {
        room = ALL;
        return failed(number("FAULT", ENOSPC));
    }
    taken = syscall(SYS_write, file, bytes, taken);
    if (taken > 0)
        room -= taken;
    return taken;
}

long read(int file, void *bytes, size_t count) {
    long given;
    if (file != INPUT)
        return syscall(SYS_read, file, bytes, count);
    if (reads == -1) {
        reads = number("READS", ALL);
        read_fault = number("READ_FAULT", 0);
    }
    given = syscall(SYS_read, file, bytes, (long)count > reads ? (size_t)reads : count);
    if (given == 0 && read_fault != 0) {
        given = failed(read_fault);
        read_fault = 0;
    }
    return given;
}
