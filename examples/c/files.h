/* Files read and written to their end, or a sentence on standard error: for the
 * examples. */
#ifndef FILES_H
#define FILES_H

#include <stdint.h>
#include <stdio.h>

/* The whole file into `bytes`, which has room for `most` bytes and for one more
 * that tells a longer file: 1, or 0 with a sentence. */
static inline int read_file(const char *name, uint8_t *bytes, size_t most, size_t *length)
{
    FILE *in = fopen(name, "rb");
    if (!in) {
        perror(name);
        return 0;
    }
    *length = fread(bytes, 1, most + 1, in);
    int broken = ferror(in);
    fclose(in);
    if (broken)
        fprintf(stderr, "%s: cannot be read to its end\n", name);
    else if (*length > most)
        fprintf(stderr, "%s: longer than %zu bytes\n", name, most);
    return !broken && *length <= most;
}

/* A file of these bytes: 1, or 0 with a sentence. */
static inline int write_file(const char *name, const uint8_t *bytes, size_t length)
{
    FILE *out = fopen(name, "wb");
    if (!out) {
        perror(name);
        return 0;
    }
    int whole = fwrite(bytes, 1, length, out) == length;
    /* what is still held back is written by closing */
    whole &= fclose(out) == 0;
    if (!whole)
        fprintf(stderr, "%s: cannot be written to its end\n", name);
    return whole;
}

#endif
