/* The pack keeper for the bench rig's host program. Link the archive that `./keeper staticlib` makes (x86-64).
 * Each function answers for every input, reads and changes only the bytes that it is handed, and keeps nothing. What it
 * takes as const it does not change; the two buffers of one call must not overlap. A null pointer is fine where the length
 * is 0. */
#ifndef KEEPER_H
#define KEEPER_H

#if !defined(__x86_64__) || defined(__ILP32__) || defined(_WIN32)
#error "the pack keeper's archive is for x86-64 Linux: this compiler makes programs for another machine or system"
#endif

#include <stddef.h>
#include <stdint.h>

#ifdef __cplusplus
extern "C" {
#endif

/* The check byte of the bytes, 0 to 255: SMBus CRC-8, polynomial x^8 + x^2 + x + 1, start 0, most significant bit first,
 * no final change. Of no bytes it is 0. */
uint32_t keeper_check_byte(const uint8_t *bytes, size_t length);

/* The judge of a settings page: 0 if it is accepted, else the refusal's number times 256 plus the word at fault. A page has
 * 128 bytes, words 0 to 63, or 160 bytes, words 0 to 79; any other length is answered too, with refusal 1. Numbers 1 to 4
 * name word 0; 5 to 8 name the lowest word at fault, for 8 the trip word. */
uint32_t keeper_judge_page(const uint8_t *page, size_t length);

/* The two parts of the judge's number, and of the reader's: the refusal, 0 if the page is accepted, and the word at fault, or
 * the line. */
#define KEEPER_REFUSAL(answer) ((uint32_t)(answer) / 256u)
#define KEEPER_WORD(answer) ((uint32_t)(answer) % 256u)

/* Writes a page as a sheet, a line for each word: number, name and value, parted by tabs. The answer is the sheet's length,
 * and it stands at the front of the text; bytes of the text past it stay as they were. Or it is a refusal's number times
 * 65536 plus the word at fault, and the whole text stays as it was: first the page's refusals, then 23 where the room is
 * less than the sheet. No sheet has more bytes than KEEPER_SHEET_ROOM. */
uint64_t keeper_write_sheet(const uint8_t *page, size_t length, uint8_t *text, size_t room);
#define KEEPER_SHEET_ROOM 2123u

/* The two parts of its number: the refusal, 0 if the sheet was written, and then the length, else the word at fault. */
#define KEEPER_SHEET_REFUSAL(answer) ((uint32_t)((uint64_t)(answer) / 65536u))
#define KEEPER_SHEET_LENGTH(answer) ((uint32_t)((uint64_t)(answer) % 65536u))

/* Reads a sheet into a page: 0 if it is accepted, and then the page holds its bytes, else the refusal's number times 256 plus
 * the line or the word, and the page stays as it was. 19 names the first bad line, counted from 1; where no line is bad, a
 * page of another size than the sheet's (128 or 160) is 1; then the page's own refusals. */
uint32_t keeper_read_sheet(const uint8_t *text, size_t length, uint8_t *page, size_t size);

/* The refusals of a page and of a sheet. */
enum {
    KEEPER_ACCEPTED = 0,
    KEEPER_WRONG_LENGTH = 1,      /* neither 128 nor 160 bytes */
    KEEPER_BYTES_SWAPPED = 2,     /* word 0 reads 0xA417 or 0xA517 */
    KEEPER_NO_MARK = 3,           /* word 0 is otherwise not the mark of this length: 0x17A4 for 128 bytes, 0x17A5 for 160 */
    KEEPER_CHECK_BYTE = 4,        /* the check byte differs */
    KEEPER_RESERVED_NOT_0 = 5,    /* a reserved word, or byte 126 as word 63 (of 160 bytes byte 158 as word 79) */
    KEEPER_SETTING_RANGE = 6,     /* one of words 1 to 8 is out of range */
    KEEPER_PROTECTION_RANGE = 7,  /* a word of a protection is out of range */
    KEEPER_LEVELS_ORDER = 8,      /* trip and release are not in their order */
    KEEPER_SHEET_LINE = 19,       /* a line of a sheet is bad, missing or extra */
    KEEPER_TEXT_ROOM = 23         /* the text is too short for the sheet */
};

#ifdef __cplusplus
}
#endif

#endif
