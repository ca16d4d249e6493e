/* A plain search, to hold the carving program to: plain_search FILE. It counts where the bytes 2a 2a 00 00 stand, in a loop over the bytes of
   65,536 at a time, and looks at nothing else: no size, no second copy, no list. */
#include <stdio.h>
#include <stdint.h>
#include <stdlib.h>

int main(int argc, char **argv)
{
    static uint8_t block[65536];
    uint32_t last = 0;
    uint64_t found = 0;
    size_t n;
    FILE *file = argc == 2 ? fopen(argv[1], "rb") : NULL;

    if (!file || setvbuf(file, NULL, _IONBF, 0) != 0) {
        fputs("usage: plain_search FILE\n", stderr);
        return EXIT_FAILURE;
    }
    while ((n = fread(block, 1, sizeof block, file)) > 0)
        for (size_t i = 0; i < n; i++) {
            last = last << 8 | block[i];
            found += last == 0x2a2a0000;
        }
    printf("%llu\n", (unsigned long long)found);
    return ferror(file) ? EXIT_FAILURE : EXIT_SUCCESS;
}
