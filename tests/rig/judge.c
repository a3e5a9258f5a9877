/* judge PAGE: a small program over keeper.h. It prints the judge's verdict of a page file: 0 and 0, or the refusal and the word. */
#include "keeper.h"

#include <stdio.h>

int main(int count, char **words)
{
    static uint8_t page[256];
    FILE *file = count == 2 ? fopen(words[1], "rb") : NULL;
    if (file == NULL) {
        fprintf(stderr, "usage: judge PAGE\n");
        return 2;
    }
    uint32_t answer = keeper_judge_page(page, fread(page, 1, sizeof page, file));
    fclose(file);
    printf("%lu %lu\n", (unsigned long)KEEPER_REFUSAL(answer), (unsigned long)KEEPER_WORD(answer));
    return answer == KEEPER_ACCEPTED ? 0 : 3;
}
