/* Writes so many bytes to standard output, in pieces of so many: write BYTES PIECE. */
#include <stdio.h>
#include <stdlib.h>
#include <string.h>
#include <unistd.h>

int main(int count, char **words) {
    if (count != 3) {
        fprintf(stderr, "write: use BYTES PIECE\n");
        return 2;
    }
    unsigned long long left = strtoull(words[1], NULL, 10);
    size_t piece = strtoull(words[2], NULL, 10);
    char *bytes = malloc(piece);
    if (!bytes || !piece) {
        return 1;
    }
    memset(bytes, 0x5a, piece);
    while (left > 0) {
        ssize_t wrote = write(1, bytes, left < piece ? left : piece);
        if (wrote <= 0) {
            return 1;
        }
        left -= wrote;
    }
    return 0;
}
