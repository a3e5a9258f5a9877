/* Check bytes of many pages through the library for C: check-byte PAGES prints the seconds of processor time that they took, and
 * all of the answers joined by exclusive or. */
#include "../rig/keeper.h"

#include <stdio.h>
#include <stdlib.h>
#include <time.h>

int main(int argc, char **argv)
{
    uint8_t page[127];
    uint32_t joined = 0;
    unsigned long pages = argc == 2 ? strtoul(argv[1], NULL, 10) : 0;
    if (pages == 0) {
        fprintf(stderr, "usage: check-byte PAGES\n");
        return 2;
    }
    for (unsigned i = 0; i < sizeof page; i++)
        page[i] = (uint8_t)(i * 37 + 11);
    clock_t began = clock();
    for (unsigned long k = 0; k < pages; k++) {
        page[k % sizeof page] ^= (uint8_t)k;
        joined ^= keeper_check_byte(page, sizeof page) << (k % 24);
    }
    printf("%.2f %lx\n", (double)(clock() - began) / CLOCKS_PER_SEC, (unsigned long)joined);
    return 0;
}
