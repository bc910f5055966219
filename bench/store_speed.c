/* The writes and syncs of flushes, and nothing else: what store_speed.sh compares with.
   store_speed FILE COUNT writes side 0 of so many pages, each with one object of 16 bytes in slot 0. */
#include <fcntl.h>
#include <stdio.h>
#include <stdlib.h>
#include <string.h>
#include <unistd.h>

int main(int words, char **word) {
    if (words != 3) return 2;
    int file = open(word[1], O_RDWR | O_CREAT | O_TRUNC, 0644);
    if (file < 0) return 1;
    unsigned char page[4096];
    memset(page, 0, sizeof page);
    /* One object, of class 0 and version 0, with the number 7. */
    memcpy(page, "TP\1\1\0\0\0\0\0\0\20\0\0\0\0\0\0\1\1\0\0\0\0\0\0\0\7", 27);
    for (long number = 0; number < atol(word[2]); number++) {
        page[4] = number >> 24;
        page[5] = number >> 16;
        page[6] = number >> 8;
        page[7] = number;
        if (pwrite(file, page, sizeof page, 8192 * number) != sizeof page || fdatasync(file) != 0) {
            perror("store_speed");
            return 1;
        }
    }
    return close(file) != 0;
}
