/* Prints the listing of a session file.
   harness/run library session_file
   cc -O2 -Iinclude harness/c/example.c target/staticlib/libsession_file.a -o target/example && target/example examples/case-l.session */
#include "session_file.h"
#include <stdio.h>
#include <stdlib.h>

/* The listing in a buffer of its own, doubled until it fits; NULL if there is none. */
static uint8_t *listing(const uint8_t *file, size_t file_len, int64_t *length) {
    size_t room = 4096;
    for (;;) {
        uint8_t *output = malloc(room);
        if (output == NULL) return NULL;
        *length = clear_session_file(file, file_len, output, room);
        if (*length >= 0) return output;
        free(output);
        if (*length != SESSION_FILE_OUTPUT_TOO_SMALL) return NULL;
        room *= 2;
    }
}

int main(int argc, char **argv) {
    /* One byte more than a file may have, so that a longer one is told apart. */
    static uint8_t file[SESSION_FILE_MAX_INPUT + 1];
    FILE *in = argc == 2 ? fopen(argv[1], "rb") : NULL;
    if (in == NULL) {
        fprintf(stderr, "usage: example FILE\n");
        return 2;
    }
    size_t file_len = fread(file, 1, sizeof file, in);
    int failed = ferror(in);
    fclose(in);
    int64_t length = 0;
    uint8_t *output = failed ? NULL : listing(file, file_len, &length);
    if (output == NULL) {
        fprintf(stderr, "example: no listing (%lld)\n", (long long)length);
        return 1;
    }
    size_t written = fwrite(output, 1, (size_t)length, stdout);
    free(output);
    return written == (size_t)length ? 0 : 1;
}
