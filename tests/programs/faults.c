// Stands before C's read and write in a program under test: one call fails, or every call moves few bytes. No header is needed.
//   READ_FAILS=N   the Nth read of a file fails with ERROR      SHORT_READS=N    a read of a file gives N bytes at most
//   WRITE_FAILS=N  the Nth write to standard output fails       SHORT_WRITES=N   a write to standard output takes N bytes at most
#ifndef READ_FAILS
#define READ_FAILS 0
#endif
#ifndef WRITE_FAILS
#define WRITE_FAILS 0
#endif
#ifndef SHORT_READS
#define SHORT_READS 1000000
#endif
#ifndef SHORT_WRITES
#define SHORT_WRITES 1000000
#endif
#ifndef ERROR
#define ERROR 5
#endif

extern int *__errno_location(void);

static long call(long number, long a, long b, long c) {
    long result;
    __asm__ volatile("syscall" : "=a"(result) : "a"(number), "D"(a), "S"(b), "d"(c) : "rcx", "r11", "memory");
    return result;
}

static long answered(long result) {
    if (result < 0) {
        *__errno_location() = (int)-result;
        return -1;
    }
    return result;
}

static int reads, writes;

long read(int fd, void *buf, unsigned long n) {
    if (fd > 2) {
        if (++reads == READ_FAILS) return answered(-ERROR);
        if (n > SHORT_READS) n = SHORT_READS;
    }
    return answered(call(0, fd, (long)buf, (long)n));
}

long write(int fd, const void *buf, unsigned long n) {
    if (fd == 1) {
        if (++writes == WRITE_FAILS) return answered(-ERROR);
        if (n > SHORT_WRITES) n = SHORT_WRITES;
    }
    return answered(call(1, fd, (long)buf, (long)n));
}
