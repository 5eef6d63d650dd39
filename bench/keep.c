// A cat that keeps all that it passes on, each MiB in memory of its own, as a unit keeps the data of WRITEs.
#include <stdlib.h>
#include <unistd.h>

enum { MIB = 1 << 20, PIECE = 128 << 10 };

int main(void)
{
    for (;;) {
        char *kept = malloc(MIB);
        if (kept == NULL)
            return 1;
        for (size_t at = 0; at < MIB;) {
            ssize_t count = read(0, kept + at, MIB - at < PIECE ? MIB - at : PIECE);
            if (count < 0)
                return 1;
            if (count == 0)
                return 0;
            for (size_t end = at + count; at < end;) {
                ssize_t taken = write(1, kept + at, end - at);
                if (taken < 0)
                    return 1;
                at += taken;
            }
        }
    }
}
