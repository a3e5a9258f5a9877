/* What a proved program needs of Linux, in place of a C library: start and end, arguments, files, errno and its texts, memory. Nothing here is
   proved. Each function keeps the contract that the kit's libraries libc and os assume of it, and where a call fails the program says what it says
   with the kit's C library. A call that a signal interrupts is made again, a descriptor that does not wait is waited for, and a program whose reader
   is gone is ended by the signal, as every other program of a pipeline is.
   For x86-64 and aarch64, by tools/static.sh, without the compiler's own functions: it must not make a call of memcpy out of memcpy. */

typedef unsigned char byte;
typedef __SIZE_TYPE__ size;

/* ---- calls of Linux: an answer below 0 is the error's number */

#if defined __x86_64__

enum { READ = 0, WRITE = 1, CLOSE = 3, SEEK = 8, SIGACTION = 13, FCNTL = 72, EXIT_GROUP = 231, OPENAT = 257, PPOLL = 271 };

static long call(long number, long a, long b, long c, long d, long e) {
    long result;
    register long fourth __asm__("r10") = d;
    register long fifth __asm__("r8") = e;
    __asm__ volatile("syscall" : "=a"(result) : "a"(number), "D"(a), "S"(b), "d"(c), "r"(fourth), "r"(fifth) : "rcx", "r11", "memory");
    return result;
}

/* Linux starts a program here, with the count of its arguments and then the arguments on the stack. */
__asm__(".globl _start\n"
        "_start:\n"
        "    xor %ebp, %ebp\n"
        "    mov %rsp, %rdi\n"
        "    and $-16, %rsp\n"
        "    call begin\n");

#elif defined __aarch64__

enum { FCNTL = 25, OPENAT = 56, CLOSE = 57, SEEK = 62, READ = 63, WRITE = 64, PPOLL = 73, EXIT_GROUP = 94, SIGACTION = 134 };

static long call(long number, long a, long b, long c, long d, long e) {
    register long which __asm__("x8") = number;
    register long first __asm__("x0") = a;
    register long second __asm__("x1") = b;
    register long third __asm__("x2") = c;
    register long fourth __asm__("x3") = d;
    register long fifth __asm__("x4") = e;
    __asm__ volatile("svc 0" : "+r"(first) : "r"(which), "r"(second), "r"(third), "r"(fourth), "r"(fifth) : "memory", "cc");
    return first;
}

/* Linux starts a program here, with the count of its arguments and then the arguments on the stack. */
__asm__(".globl _start\n"
        "_start:\n"
        "    mov x29, 0\n"
        "    mov x30, 0\n"
        "    mov x0, sp\n"
        "    b begin\n");

#else
#error "a program is made for x86-64 or aarch64"
#endif

/* ---- errno and its texts */

enum { EINTR = 4, EAGAIN = 11, EINVAL = 22, EMFILE = 24, ERANGE = 34 };

static int error;

int rattle_errno(void) { return error; }

void rattle_set_errno(int number) { error = number; }

/* What C's functions give for an answer of Linux: -1 and errno where the call failed. */
static long answer(long result) {
    if (result >= 0) return result;
    error = (int)-result;
    return -1;
}

static const char *const texts[] = {
    [0] = "Success",
    [1] = "Operation not permitted",
    [2] = "No such file or directory",
    [3] = "No such process",
    [4] = "Interrupted system call",
    [5] = "Input/output error",
    [6] = "No such device or address",
    [7] = "Argument list too long",
    [8] = "Exec format error",
    [9] = "Bad file descriptor",
    [10] = "No child processes",
    [11] = "Resource temporarily unavailable",
    [12] = "Cannot allocate memory",
    [13] = "Permission denied",
    [14] = "Bad address",
    [15] = "Block device required",
    [16] = "Device or resource busy",
    [17] = "File exists",
    [18] = "Invalid cross-device link",
    [19] = "No such device",
    [20] = "Not a directory",
    [21] = "Is a directory",
    [22] = "Invalid argument",
    [23] = "Too many open files in system",
    [24] = "Too many open files",
    [25] = "Inappropriate ioctl for device",
    [26] = "Text file busy",
    [27] = "File too large",
    [28] = "No space left on device",
    [29] = "Illegal seek",
    [30] = "Read-only file system",
    [31] = "Too many links",
    [32] = "Broken pipe",
    [33] = "Numerical argument out of domain",
    [34] = "Numerical result out of range",
    [35] = "Resource deadlock avoided",
    [36] = "File name too long",
    [37] = "No locks available",
    [38] = "Function not implemented",
    [39] = "Directory not empty",
    [40] = "Too many levels of symbolic links",
    [42] = "No message of desired type",
    [43] = "Identifier removed",
    [44] = "Channel number out of range",
    [45] = "Level 2 not synchronized",
    [46] = "Level 3 halted",
    [47] = "Level 3 reset",
    [48] = "Link number out of range",
    [49] = "Protocol driver not attached",
    [50] = "No CSI structure available",
    [51] = "Level 2 halted",
    [52] = "Invalid exchange",
    [53] = "Invalid request descriptor",
    [54] = "Exchange full",
    [55] = "No anode",
    [56] = "Invalid request code",
    [57] = "Invalid slot",
    [59] = "Bad font file format",
    [60] = "Device not a stream",
    [61] = "No data available",
    [62] = "Timer expired",
    [63] = "Out of streams resources",
    [64] = "Machine is not on the network",
    [65] = "Package not installed",
    [66] = "Object is remote",
    [67] = "Link has been severed",
    [68] = "Advertise error",
    [69] = "Srmount error",
    [70] = "Communication error on send",
    [71] = "Protocol error",
    [72] = "Multihop attempted",
    [73] = "RFS specific error",
    [74] = "Bad message",
    [75] = "Value too large for defined data type",
    [76] = "Name not unique on network",
    [77] = "File descriptor in bad state",
    [78] = "Remote address changed",
    [79] = "Can not access a needed shared library",
    [80] = "Accessing a corrupted shared library",
    [81] = ".lib section in a.out corrupted",
    [82] = "Attempting to link in too many shared libraries",
    [83] = "Cannot exec a shared library directly",
    [84] = "Invalid or incomplete multibyte or wide character",
    [85] = "Interrupted system call should be restarted",
    [86] = "Streams pipe error",
    [87] = "Too many users",
    [88] = "Socket operation on non-socket",
    [89] = "Destination address required",
    [90] = "Message too long",
    [91] = "Protocol wrong type for socket",
    [92] = "Protocol not available",
    [93] = "Protocol not supported",
    [94] = "Socket type not supported",
    [95] = "Operation not supported",
    [96] = "Protocol family not supported",
    [97] = "Address family not supported by protocol",
    [98] = "Address already in use",
    [99] = "Cannot assign requested address",
    [100] = "Network is down",
    [101] = "Network is unreachable",
    [102] = "Network dropped connection on reset",
    [103] = "Software caused connection abort",
    [104] = "Connection reset by peer",
    [105] = "No buffer space available",
    [106] = "Transport endpoint is already connected",
    [107] = "Transport endpoint is not connected",
    [108] = "Cannot send after transport endpoint shutdown",
    [109] = "Too many references: cannot splice",
    [110] = "Connection timed out",
    [111] = "Connection refused",
    [112] = "Host is down",
    [113] = "No route to host",
    [114] = "Operation already in progress",
    [115] = "Operation now in progress",
    [116] = "Stale file handle",
    [117] = "Structure needs cleaning",
    [118] = "Not a XENIX named type file",
    [119] = "No XENIX semaphores available",
    [120] = "Is a named type file",
    [121] = "Remote I/O error",
    [122] = "Disk quota exceeded",
    [123] = "No medium found",
    [124] = "Wrong medium type",
    [125] = "Operation canceled",
    [126] = "Required key not available",
    [127] = "Key has expired",
    [128] = "Key has been revoked",
    [129] = "Key was rejected by service",
    [130] = "Owner died",
    [131] = "State not recoverable",
    [132] = "Operation not possible due to RF-kill",
    [133] = "Memory page has hardware error",
};

/* Puts a text into a buffer of n bytes, as far as it goes, and a 0 behind it; its length. */
static size put(const char *text, char *buf, size n) {
    size i = 0;
    for (; text[i]; i++)
        if (i + 1 < n) buf[i] = text[i];
    if (n > 0) buf[i < n ? i : n - 1] = 0;
    return i;
}

/* Puts the text of an error into a buffer of n bytes: 0, EINVAL for a number that has no text, ERANGE where the text is cut. */
int __xpg_strerror_r(int number, char *buf, size n) {
    if (number >= 0 && (size)number < sizeof texts / sizeof texts[0] && texts[number]) return put(texts[number], buf, n) < n ? 0 : ERANGE;
    char unknown[] = "Unknown error            ";
    size at = 14;
    unsigned left = (unsigned)number;
    if (number < 0) {
        unknown[at++] = '-';
        left = 0 - left;
    }
    unsigned place = 1;
    while (left / place > 9) place *= 10;
    for (; place > 0; place /= 10) unknown[at++] = (char)('0' + left / place % 10);
    unknown[at] = 0;
    put(unknown, buf, n);
    return EINVAL;
}

/* ---- files */

enum { AT_FDCWD = -100, F_DUPFD_CLOEXEC = 1030, POLLIN = 1, POLLOUT = 4, SIG_IGN = 1, SIGXFSZ = 25 };

/* Whether a call that gave `result` is to be made again: a signal came first, or the descriptor does not wait by itself and is ready now. */
static int again(long result, int fd, short wanted) {
    if (result == -EINTR) return 1;
    if (result != -EAGAIN) return 0;
    struct {
        int fd;
        short wanted, ready;
    } poll = {fd, wanted, 0};
    long ready = call(PPOLL, (long)&poll, 1, 0, 0, 0);
    return ready > 0 || ready == -EINTR;
}

/* The descriptor that a name stands for: /dev/stdin, or /dev/fd/ and a number of three digits at most; -1 where it is no such name. */
static int descriptor(const char *path) {
    static const char input[] = "/dev/stdin", numbered[] = "/dev/fd/";
    size i = 0;
    while (input[i] && path[i] == input[i]) i++;
    if (!input[i] && !path[i]) return 0;
    for (i = 0; numbered[i]; i++)
        if (path[i] != numbered[i]) return -1;
    int fd = 0;
    size first = i;
    for (; path[i]; i++) {
        if (path[i] < '0' || path[i] > '9' || i - first == 3) return -1;
        fd = fd * 10 + (path[i] - '0');
    }
    return i > first ? fd : -1;
}

/* Opens a file, which no program of ours makes. It is never descriptor 0, 1 or 2, even where these are closed, so that they stay closed for who
   writes there. What has the name of a descriptor is that one as it stands, so that another user's pipe, a socket, or a file that is partly read
   goes on from there. */
int open(const char *path, int flags, ...) {
    long fd = descriptor(path);
    if (fd >= 0) return (int)answer(call(FCNTL, fd, F_DUPFD_CLOEXEC, 3, 0, 0));
    do fd = call(OPENAT, AT_FDCWD, (long)path, flags, 0, 0);
    while (fd == -EINTR);
    if (fd < 0 || fd > 2) return (int)answer(fd);
    long above = call(FCNTL, fd, F_DUPFD_CLOEXEC, 3, 0, 0);
    call(CLOSE, fd, 0, 0, 0, 0);
    return (int)answer(above < 0 ? -EMFILE : above);
}

/* One command with a number behind it, as that which gives a second descriptor. */
int fcntl(int fd, int command, ...) {
    __builtin_va_list rest;
    __builtin_va_start(rest, command);
    long number = __builtin_va_arg(rest, int);
    __builtin_va_end(rest);
    return (int)answer(call(FCNTL, fd, command, number, 0, 0));
}

long lseek(int fd, long offset, int whence) { return answer(call(SEEK, fd, offset, whence, 0, 0)); }

int close(int fd) { return (int)answer(call(CLOSE, fd, 0, 0, 0, 0)); }

long read(int fd, void *buf, size n) {
    long result;
    do result = call(READ, fd, (long)buf, (long)n, 0, 0);
    while (again(result, fd, POLLIN));
    return answer(result);
}

/* Writes what the descriptor takes, which may be a part. */
long write(int fd, const void *buf, size n) {
    long result;
    do result = call(WRITE, fd, (long)buf, (long)n, 0, 0);
    while (again(result, fd, POLLOUT));
    return answer(result);
}

long __write(int fd, const void *buf, size n) { return write(fd, buf, n); }

/* ---- memory, 16 bytes at a time; the last 16 may overlap those before */

typedef byte part __attribute__((vector_size(16), aligned(1), may_alias));
typedef unsigned long eight __attribute__((aligned(1), may_alias));
typedef unsigned four __attribute__((aligned(1), may_alias));

/* Copies fewer than 16 bytes. All are read before one is written, so that the two places may overlap. */
static void copy_few(byte *to, const byte *from, size n) {
    if (n >= 8) {
        eight front = *(const eight *)from, back = *(const eight *)(from + n - 8);
        *(eight *)to = front;
        *(eight *)(to + n - 8) = back;
    } else if (n >= 4) {
        four front = *(const four *)from, back = *(const four *)(from + n - 4);
        *(four *)to = front;
        *(four *)(to + n - 4) = back;
    } else if (n > 0) {
        byte front = from[0], middle = from[n / 2], back = from[n - 1];
        to[0] = front;
        to[n / 2] = middle;
        to[n - 1] = back;
    }
}

/* Copies upwards, for places that do not overlap, or the first of which is the lower one. */
static void copy_up(byte *to, const byte *from, size n) {
    part back = *(const part *)(from + n - 16);
    for (size i = 0; i < n - 16; i += 16) *(part *)(to + i) = *(const part *)(from + i);
    *(part *)(to + n - 16) = back;
}

/* Copies downwards, for places the first of which is the higher one. */
static void copy_down(byte *to, const byte *from, size n) {
    part front = *(const part *)from;
    for (size i = n; i > 16; i -= 16) *(part *)(to + i - 16) = *(const part *)(from + i - 16);
    *(part *)to = front;
}

void *memcpy(void *to, const void *from, size n) {
    if (n < 16) copy_few(to, from, n);
    else copy_up(to, from, n);
    return to;
}

void *memmove(void *to, const void *from, size n) {
    if (n < 16) copy_few(to, from, n);
    else if ((size)to < (size)from) copy_up(to, from, n);
    else copy_down(to, from, n);
    return to;
}

void *memset(void *to, int value, size n) {
    byte *at = to;
    part all = (part){0} + (byte)value;
    if (n < 16) {
        for (size i = 0; i < n; i++) at[i] = (byte)value;
        return to;
    }
    for (size i = 0; i < n - 16; i += 16) *(part *)(at + i) = all;
    *(part *)(at + n - 16) = all;
    return to;
}

/* ---- start and end */

static long count;
static char **arguments;

/* Puts argument i into a buffer of n bytes: its length, -1 where there is none, -2 where it does not fit, and then the buffer is full. */
long rattle_arg(size i, byte *buf, size n) {
    if (i >= (size)count) return -1;
    const char *argument = arguments[i];
    size k = 0;
    for (; argument[k]; k++) {
        if (k == n) return -2;
        buf[k] = (byte)argument[k];
    }
    return (long)k;
}

/* How many arguments there are, the program's own name among them. */
size rattle_arg_count(void) { return (size)count; }

/* The kit's start asks that SIGPIPE be ignored. It stays as the program was started with it. */
void *__sysv_signal(int number, void *handler) {
    (void)number, (void)handler;
    return 0;
}

#if defined __x86_64__

/* What the processor has, as C's library tells it: four words of the instruction cpuid, and again those that may be used. The kit's start asks
   for 1 and for 0x80000001, which are its leaves 0 and 2, and looks only for what needs no leave of the system. */
struct leaf {
    unsigned has[4], active[4];
};

const struct leaf *__x86_get_cpuid_feature_leaf(unsigned which) {
    static struct leaf leaves[3];
    struct leaf *leaf = leaves + (which == 0 ? 0 : which == 2 ? 2 : 1);
    if (which == 0 || which == 2) {
        unsigned *word = leaf->has;
        __asm__ volatile("cpuid" : "=a"(word[0]), "=b"(word[1]), "=c"(word[2]), "=d"(word[3]) : "a"(which == 0 ? 1u : 0x80000001u), "c"(0));
        for (int i = 0; i < 4; i++) leaf->active[i] = word[i];
    }
    return leaf;
}

#endif

extern int main(int count, char **arguments);

/* The program, and the status that it gives. A file that grows over the limit for its size is an error of that write, and not a signal that ends
   the program. */
__attribute__((noreturn)) void begin(long *stack) {
    struct {
        unsigned long handler, flags, restorer, mask;
    } ignored = {SIG_IGN, 0, 0, 0};
    call(SIGACTION, SIGXFSZ, (long)&ignored, 0, sizeof ignored.mask, 0);
    count = stack[0];
    arguments = (char **)(stack + 1);
    int status = main((int)count, arguments);
    for (;;) call(EXIT_GROUP, status, 0, 0, 0, 0);
}
