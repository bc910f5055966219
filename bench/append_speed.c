/* The writes and syncs of a log's appends, and nothing else: what append_speed.sh compares with.
   append_speed FILE COUNT adds COUNT records of 200 bytes. */
#include <fcntl.h>
#include <stdio.h>
#include <stdlib.h>
#include <string.h>
#include <unistd.h>

static void put(int file, const unsigned char *bytes, size_t count, off_t at) {
    if (pwrite(file, bytes, count, at) != (ssize_t)count || fdatasync(file) != 0) {
        perror("append_speed");
        exit(1);
    }
}

int main(int words, char **word) {
    if (words != 3) return 2;
    int file = open(word[1], O_RDWR | O_CREAT | O_TRUNC, 0644);
    if (file < 0) return 1;
    unsigned char record[205], gate = 1, header[13] = {0};
    memset(record, 7, sizeof record);
    memcpy(record, "\0\0\0\310", 4);
    record[204] = 0;
    header[7] = 1;
    put(file, header, 1, 0);
    put(file, header, sizeof header, 1);
    put(file, &gate, 1, 0);
    off_t end = 13;
    for (long count = atol(word[2]); count > 0; count--) {
        put(file, record, sizeof record, end + 1);
        put(file, &gate, 1, end);
        end += sizeof record;
    }
    return close(file) != 0;
}
