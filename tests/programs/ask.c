/* Asks what the programs ask of the C library, and writes the answers: linked with the kit's C library and with tools/os.c it must write the same.
     ask WORDS..       every answer, and those for the words
     ask -status TEXT  ends with the text's length */
typedef unsigned char byte;
typedef __SIZE_TYPE__ size;

long read(int fd, void *buf, size n);
long write(int fd, const void *buf, size n);
int __xpg_strerror_r(int number, char *buf, size n);
int rattle_errno(void);
void rattle_set_errno(int number);
int open(const char *path, int flags, ...);
int fcntl(int fd, int command, ...);
long lseek(int fd, long offset, int whence);
int close(int fd);
size rattle_arg_count(void);
long rattle_arg(size i, byte *buf, size n);
void *memcpy(void *to, const void *from, size n);
void *memmove(void *to, const void *from, size n);
void *memset(void *to, int value, size n);

static char line[8192];
static size filled;

static void text(const char *t) {
    for (size i = 0; t[i]; i++) line[filled++] = t[i];
}

static void number(const char *before, long n) {
    char digits[24];
    int k = 0;
    unsigned long left = n < 0 ? 0 - (unsigned long)n : (unsigned long)n;
    text(before);
    if (n < 0) text("-");
    do digits[k++] = (char)('0' + left % 10);
    while (left /= 10);
    while (k > 0) line[filled++] = digits[--k];
}

static void end_line(void) {
    line[filled++] = '\n';
    write(1, line, filled);
    filled = 0;
}

/* The text of an error in a buffer of n bytes; what stands behind them stays. */
static void error_text(int e, size n) {
    char buf[65];
    for (size i = 0; i < sizeof buf; i++) buf[i] = '#';
    rattle_set_errno(77);
    number("error ", e);
    number(" ", (long)n);
    number(" gives ", __xpg_strerror_r(e, buf, n));
    text(": ");
    for (size i = 0; i < sizeof buf; i++) line[filled++] = buf[i] ? buf[i] : '0';
    end_line();
}

static void errors(void) {
    for (int e = -3; e < 4100; e++) error_text(e, 64);
    error_text(2147483647, 64);
    error_text(-2147483647 - 1, 64);
    for (size n = 0; n < 30; n++) {
        error_text(2, n);
        error_text(4000, n);
        error_text(-1234567, n);
    }
}

static void words(void) {
    static byte buf[6000];
    number("words ", (long)rattle_arg_count());
    end_line();
    static const size rooms[] = {0, 1, 2, 5, 4095, 4096, 5999};
    for (size i = 1; i < 6; i++)
        for (size k = 0; k < sizeof rooms / sizeof rooms[0]; k++) {
            for (size j = 0; j < sizeof buf; j++) buf[j] = '#';
            number("word ", (long)i);
            number(" room ", (long)rooms[k]);
            long got = rattle_arg(i, buf, rooms[k]);
            number(" gives ", got);
            text(": ");
            for (size j = 0; j < 6000 && (got < 0 || j < (size)got + 2); j++) line[filled++] = (char)buf[j];
            end_line();
        }
    number("a word that is not there: ", rattle_arg(1000000, buf, 10));
    number(" ", rattle_arg((size)-1, buf, 10));
    end_line();
}

static void calls(void) {
    char c = 'x';
    int fd;
    rattle_set_errno(77);
    number("errno ", rattle_errno());
    number(" read ", read(99, &c, 1));
    number(" errno ", rattle_errno());
    rattle_set_errno(77);
    number(" write ", write(99, &c, 1));
    number(" errno ", rattle_errno());
    number(" open ", open("/nosuch", 02000400));
    number(" errno ", rattle_errno());
    number(" second ", fcntl(99, 1030, 3));
    number(" errno ", rattle_errno());
    number(" place ", lseek(99, 0, 1));
    number(" errno ", rattle_errno());
    rattle_set_errno(77);
    fd = open("/dev/null", 02000400);
    number(" open ", fd > 2);
    number(" second ", fcntl(fd, 1030, 20));
    number(" place ", lseek(fd, 5, 0));
    number(" read ", read(fd, &c, 1));
    number(" write ", write(fd, &c, 1));
    number(" errno ", rattle_errno());
    number(" close ", close(fd));
    number(" close ", close(fd));
    number(" errno ", rattle_errno());
    end_line();
}

enum { ROOM = 400, MOST = 300 };
static byte place[ROOM], want[ROOM];

static void fill(void) {
    for (int i = 0; i < ROOM; i++) place[i] = want[i] = (byte)(i * 7 + i / 256 + 1);
}

static void compare(const char *what, long n, long from, long to) {
    for (int i = 0; i < ROOM; i++)
        if (place[i] != want[i]) {
            text(what);
            number(" of ", n);
            number(" bytes from ", from);
            number(" to ", to);
            number(" differs at ", i);
            end_line();
            return;
        }
}

/* Each length, at places that lie and overlap in every way, against a copy byte by byte. */
static void memory(void) {
    static byte other[ROOM];
    for (long n = 0; n < MOST; n++)
        for (long from = 0; from < 40; from++)
            for (long to = 0; to < 40; to += from < 8 ? 1 : 3) {
                fill();
                for (int i = 0; i < n; i++) other[i] = place[from + i];
                for (int i = 0; i < n; i++) want[to + i] = other[i];
                if (memmove(place + to, place + from, (size)n) != place + to) text("memmove's answer ");
                compare("memmove", n, from, to);
                if (from > 7) continue;
                fill();
                for (int i = 0; i < ROOM; i++) other[i] = (byte)(i * 5 + 3);
                for (int i = 0; i < n; i++) want[to + i] = other[from + i];
                if (memcpy(place + to, other + from, (size)n) != place + to) text("memcpy's answer ");
                compare("memcpy", n, from, to);
                fill();
                for (int i = 0; i < n; i++) want[to + i] = (byte)(from * 51 + n);
                if (memset(place + to, (int)(from * 51 + n), (size)n) != place + to) text("memset's answer ");
                compare("memset", n, from, to);
            }
    text("memory was tried");
    end_line();
}

int main(void) {
    static byte mode[16], all[4096];
    long n = rattle_arg(1, mode, sizeof mode), k = rattle_arg(2, all, sizeof all);
    if (n > 0 && mode[0] == '-') return (int)k;
    errors();
    words();
    calls();
    memory();
    return 0;
}
