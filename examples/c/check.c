/* check FILE..: prints the verdict line of each recording, and ends with the worst status: 0 accepted, 1 false, 2 refused. */
#include "galluspa.h"
#include <stdio.h>
#include <stdlib.h>

int main(int argc, char **argv) {
    uint8_t *text = malloc(GALLUSPA_LONGEST + 1), line[256], status, worst = 0;
    for (int i = 1; i < argc; i++) {
        FILE *file = fopen(argv[i], "rb");
        if (!text || !file) { perror(argv[i]); return 3; }
        size_t length = fread(text, 1, GALLUSPA_LONGEST + 1, file);
        if (ferror(file)) { perror(argv[i]); return 3; }
        fclose(file);
        size_t written = galluspa_check(text, length, line, sizeof line, &status);
        if (!written) { fprintf(stderr, "%s: no memory\n", argv[i]); return 3; }
        printf("%s: %.*s", argv[i], (int)written, line);
        if (status > worst) worst = status;
    }
    free(text);
    return worst;
}
