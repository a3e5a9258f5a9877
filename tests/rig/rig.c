/* The bench rig's test: calls the proved functions from C and compares with what others worked out.
 * rig VECTORS PAGES SHEETS: files of lines 'answer bytes', the bytes in hexadecimal, '-' for none. In VECTORS the answer is a check
 * byte in hexadecimal, in PAGES what the judge answers, in decimal. A line of SHEETS is 'w answer length page text' or 'r answer size
 * text page': what the writer and the reader answer, and what they leave in a buffer, or '-'. */
#include "keeper.h"

#include <stdio.h>
#include <string.h>

#define LONGEST 4096

static unsigned passed, failed; /* tests */
static unsigned compared, unlike; /* what the present test has compared */

static void expect(const char *what, uint32_t got, uint32_t wanted)
{
    compared++;
    if (got != wanted) {
        unlike++;
        printf("FAILED %s: got %lu, wanted %lu\n", what, (unsigned long)got, (unsigned long)wanted);
    }
}

/* Ends a test: it has passed if it compared something and all was alike. */
static void ends(const char *test)
{
    if (compared > 0 && unlike == 0) {
        passed++;
        printf("ok %s: %u compared\n", test, compared);
    } else {
        failed++;
        printf("FAILED %s: %u compared, %u unlike\n", test, compared, unlike);
    }
    compared = unlike = 0;
}

/* The bytes that a word of hexadecimal digits stands for, or -1 where it is none. */
static long bytes_of(const char *hex, uint8_t *out)
{
    size_t n = strlen(hex);
    if (strcmp(hex, "-") == 0)
        return 0;
    if (n % 2 != 0 || n / 2 > LONGEST)
        return -1;
    for (size_t i = 0; i < n / 2; i++) {
        unsigned byte;
        if (sscanf(hex + 2 * i, "%2x", &byte) != 1)
            return -1;
        out[i] = (uint8_t)byte;
    }
    return (long)(n / 2);
}

static void published(void)
{
    static const uint8_t one[] = { 0x01 };
    expect("check byte of 123456789", keeper_check_byte((const uint8_t *)"123456789", 9), 0xF4);
    expect("check byte of nothing", keeper_check_byte(one, 0), 0x00);
    expect("check byte of a null pointer with length 0", keeper_check_byte(NULL, 0), 0x00);
    expect("check byte of 01", keeper_check_byte(one, 1), 0x07);
    ends("published check bytes");
}

/* A page with its byte pairs swapped is refused with 2, and one whose mark is that of the other length with 3. A null page is refused
 * with 1. */
static void swapped(void)
{
    static uint8_t page[161] = { 0x17, 0xA4 };
    expect("a page that begins 17 A4", keeper_judge_page(page, 128), 2 * 256);
    expect("a long page that begins 17 A4", keeper_judge_page(page, 160), 2 * 256);
    page[1] = 0xA5;
    expect("a page that begins 17 A5", keeper_judge_page(page, 128), 2 * 256);
    expect("a long page that begins 17 A5", keeper_judge_page(page, 160), 2 * 256);
    page[0] = 0xA5, page[1] = 0x17;
    expect("a short page that begins A5 17", keeper_judge_page(page, 128), 3 * 256);
    page[0] = 0xA4;
    expect("a long page that begins A4 17", keeper_judge_page(page, 160), 3 * 256);
    for (size_t length = 0; length <= 161; length++)
        if (length != 128 && length != 160)
            expect("a page of another length", keeper_judge_page(page, length), 1 * 256);
    expect("a null page of length 0", keeper_judge_page(NULL, 0), 1 * 256);
    ends("pages worked by hand");
}

/* The judge's answer to a page whose last byte is made its check byte. */
static uint32_t sealed(uint8_t *page, size_t length)
{
    page[length - 1] = (uint8_t)keeper_check_byte(page, length - 1);
    return keeper_judge_page(page, length);
}

/* The names of the header, for a page of this length: each refusal is found in the number of a page that has it, and so is the word. The
 * page of zeros becomes good from the front: mark, check byte, reserved words, settings, protections. Those of 1, 3, 4, 8 and 9 trip at
 * or below. */
static void named(uint8_t *page, size_t length, uint8_t mark, int protections)
{
    size_t last = length / 2 - 1;
    uint32_t answer = keeper_judge_page(page, 5);
    expect("5 bytes", KEEPER_REFUSAL(answer), KEEPER_WRONG_LENGTH);
    page[0] = 0x17, page[1] = mark;
    expect("a swapped mark", KEEPER_REFUSAL(keeper_judge_page(page, length)), KEEPER_BYTES_SWAPPED);
    page[0] = 0;
    expect("no mark", KEEPER_REFUSAL(keeper_judge_page(page, length)), KEEPER_NO_MARK);
    page[0] = mark, page[1] = 0x17;
    page[length - 1] = (uint8_t)(keeper_check_byte(page, length - 1) ^ 1);
    expect("a wrong check byte", KEEPER_REFUSAL(keeper_judge_page(page, length)), KEEPER_CHECK_BYTE);
    page[2 * last] = 1;
    answer = sealed(page, length);
    expect("the byte before the check byte", KEEPER_REFUSAL(answer), KEEPER_RESERVED_NOT_0);
    expect("the word of that byte", KEEPER_WORD(answer), (uint32_t)last);
    page[2 * (last - 1)] = 1;
    answer = sealed(page, length);
    expect("the last reserved word's number", KEEPER_WORD(answer), (uint32_t)last - 1);
    page[2 * 9] = 1;
    answer = sealed(page, length);
    expect("a reserved word", KEEPER_REFUSAL(answer), KEEPER_RESERVED_NOT_0);
    expect("the reserved word's number", KEEPER_WORD(answer), 9);
    page[2 * 9] = page[2 * (last - 1)] = page[2 * last] = 0;
    answer = sealed(page, length);
    expect("no cells", KEEPER_REFUSAL(answer), KEEPER_SETTING_RANGE);
    expect("the word of the cells", KEEPER_WORD(answer), 1);
    page[2] = 2, page[4] = page[6] = page[10] = page[12] = 1;
    for (int p = 0; p < protections; p++) {
        answer = sealed(page, length);
        expect("N of 0", KEEPER_REFUSAL(answer), KEEPER_PROTECTION_RANGE);
        expect("the word of N", KEEPER_WORD(answer), (uint32_t)(18 + 5 * p));
        page[2 * (18 + 5 * p)] = page[2 * (19 + 5 * p)] = 1;
    }
    for (int p = 0; p < protections; p++) {
        int below = p == 1 || p == 3 || p == 4 || p >= 8;
        answer = sealed(page, length);
        expect("trip and release equal", KEEPER_REFUSAL(answer), KEEPER_LEVELS_ORDER);
        expect("the word of the trip", KEEPER_WORD(answer), (uint32_t)(16 + 5 * p));
        page[2 * (16 + below + 5 * p)] = 1;
    }
    expect("a good page", sealed(page, length), KEEPER_ACCEPTED);
    ends(length == 128 ? "the names of keeper.h, 128 bytes" : "the names of keeper.h, 160 bytes");
}

/* Compares a function's answers with those of a file. */
static void compare(const char *name, const char *line, uint32_t (*function)(const uint8_t *, size_t))
{
    static char word[2 * LONGEST + 2];
    static uint8_t bytes[LONGEST];
    unsigned answer;
    FILE *file = fopen(name, "r");
    if (file == NULL) {
        perror(name);
    } else {
        while (fscanf(file, line, &answer, word) == 2) {
            long n = bytes_of(word, bytes);
            if (n < 0)
                expect("bytes in hexadecimal", 0, 1);
            else
                expect(word, function(bytes, (size_t)n), answer);
        }
        if (!feof(file))
            expect("a line 'answer bytes'", 0, 1);
        fclose(file);
    }
    ends(name);
}

/* A buffer that is lent, between bytes that must stay. All of it has a pattern before the call. */
#define GUARD 64
static uint8_t space[GUARD + LONGEST + 2 * GUARD];

static uint8_t pattern(size_t i)
{
    return (uint8_t)(i * 151 + 89);
}

static uint8_t *lent(void)
{
    for (size_t i = 0; i < sizeof space; i++)
        space[i] = pattern(i);
    return space + GUARD;
}

/* The buffer begins with these bytes, and everything before and behind them is as it was. */
static void holds(const char *what, const uint8_t *bytes, size_t n)
{
    expect(what, memcmp(space + GUARD, bytes, n) == 0, 1);
    size_t changed = 0;
    for (size_t i = 0; i < sizeof space; i++)
        if ((i < GUARD || i >= GUARD + n) && space[i] != pattern(i))
            changed++;
    expect("bytes changed beside what was written", (uint32_t)changed, 0);
}

/* The writer into a text of this room. */
static void writes(const uint8_t *page, size_t length, size_t room, uint64_t wanted, const uint8_t *text, size_t n)
{
    uint64_t answer = keeper_write_sheet(page, length, lent(), room);
    expect("the writer's refusal", KEEPER_SHEET_REFUSAL(answer), (uint32_t)(wanted / 65536));
    expect("the writer's length or word", KEEPER_SHEET_LENGTH(answer), (uint32_t)(wanted % 65536));
    holds("the sheet", text, n);
}

/* A page whose sheet has n bytes is written into texts that are exact, longer and too short; a refused one into none of them. */
static void write_all(const uint8_t *page, size_t length, uint64_t answer, const uint8_t *text, size_t n)
{
    static const size_t more[] = { 0, 1, 2, 63 };
    if (answer >= 65536) {
        static const size_t rooms[] = { 0, 1, KEEPER_SHEET_ROOM, LONGEST };
        for (size_t i = 0; i < 4; i++)
            writes(page, length, rooms[i], answer, text, 0);
        return;
    }
    expect("the length of the sheet", (uint32_t)answer, (uint32_t)n);
    expect("KEEPER_SHEET_ROOM holds it", n <= KEEPER_SHEET_ROOM, 1);
    for (size_t i = 0; i < 4; i++)
        writes(page, length, n + more[i], answer, text, n);
    const size_t less[] = { n - 1, n - 2, n / 2, 1, 0 };
    for (size_t i = 0; i < 5; i++)
        writes(page, length, less[i], (uint64_t)KEEPER_TEXT_ROOM * 65536, text, 0);
    uint64_t none = keeper_write_sheet(page, length, NULL, 0);
    expect("a null text of length 0", KEEPER_SHEET_REFUSAL(none), KEEPER_TEXT_ROOM);
}

/* The reader into a page of this size. */
static void reads(const uint8_t *text, size_t n, size_t size, uint32_t wanted, const uint8_t *page)
{
    expect("the reader's answer", keeper_read_sheet(text, n, lent(), size), wanted);
    holds("the page", page, wanted == KEEPER_ACCEPTED ? size : 0);
}

/* Compares the two calls for sheets with the lines of a file. */
static void compare_sheets(const char *name)
{
    static char first[2 * LONGEST + 2], second[2 * LONGEST + 2];
    static uint8_t in[LONGEST], out[LONGEST];
    char kind;
    unsigned long answer, size;
    FILE *file = fopen(name, "r");
    if (file == NULL) {
        perror(name);
    } else {
        while (fscanf(file, " %c %lu %lu %8192s %8192s", &kind, &answer, &size, first, second) == 5) {
            long n = bytes_of(first, in), m = bytes_of(second, out);
            if (n < 0 || m < 0 || size > LONGEST)
                expect("bytes in hexadecimal", 0, 1);
            else if (kind == 'w')
                write_all(in, (size_t)n, answer, out, (size_t)m);
            else
                reads(in, (size_t)n, size, (uint32_t)answer, out);
        }
        if (!feof(file))
            expect("a line of sheets", 0, 1);
        fclose(file);
    }
    expect("a null sheet of length 0", keeper_read_sheet(NULL, 0, lent(), 128), KEEPER_SHEET_LINE * 256 + 1);
    holds("the page behind it", in, 0);
    ends(name);
}

int main(int count, char **words)
{
    static uint8_t page[128], long_page[160];
    if (count != 4) {
        fprintf(stderr, "usage: rig VECTORS PAGES SHEETS\n");
        return 2;
    }
    published();
    swapped();
    named(page, 128, 0xA4, 8);
    named(long_page, 160, 0xA5, 10);
    compare(words[1], "%2x %8192s", keeper_check_byte);
    compare(words[2], "%u %8192s", keeper_judge_page);
    compare_sheets(words[3]);
    printf("%u passed, %u failed\n", passed, failed);
    return failed != 0;
}
