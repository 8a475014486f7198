/* Hands the files that are named to the boundary, once each: `replay FILE..`. */
#include "boundary.h"
#include <stdio.h>

enum { MOST_INPUT = 1 << 16 };

int main(int argc, char **argv) {
    static uint8_t data[MOST_INPUT];
    for (int i = 1; i < argc; i++) {
        FILE *file = fopen(argv[i], "rb");
        if (file == NULL) {
            perror(argv[i]);
            return 2;
        }
        size_t size = fread(data, 1, sizeof data, file);
        fclose(file);
        boundary(data, size);
    }
    printf("%d inputs replayed\n", argc - 1);
    return 0;
}
