/* Subsets a font: subset IN OUT INDEX GID[,GID..] */
#include "subsetter.h"

#include <stdio.h>
#include <stdlib.h>
#include <string.h>

/* How the program ends: 0, or one of these. */
enum { REFUSED = 1, WRONG_USAGE = 2, NO_FILE = 3 };

/* A number of one or more ASCII digits that is at most `most`: what is after it, or null. */
static const char *read_number(const char *text, uint32_t most, uint32_t *number)
{
    const char *at = text;
    uint64_t value = 0;
    for (; *at >= '0' && *at <= '9'; at++) {
        value = 10 * value + (uint64_t)(*at - '0');
        if (value > most)
            return NULL;
    }
    *number = (uint32_t)value;
    return at > text ? at : NULL;
}

/* A word that is one number. */
static int is_number(const char *word, uint32_t *number)
{
    const char *behind = read_number(word, UINT32_MAX, number);
    return behind != NULL && *behind == 0;
}

/* The numbers of a word such as `36,37,38`, for which there is room: how many they are, or 0 for another word. */
static size_t read_glyphs(const char *word, uint16_t *glyphs)
{
    size_t count = 0;
    for (const char *at = word;; at++) {
        uint32_t glyph;
        at = read_number(at, UINT16_MAX, &glyph);
        if (at == NULL)
            return 0;
        glyphs[count++] = (uint16_t)glyph;
        if (*at != ',')
            return *at == 0 ? count : 0;
    }
}

/* The bytes of a file, which the caller frees, or null. */
static uint8_t *read_file(const char *name, size_t *size)
{
    FILE *file = fopen(name, "rb");
    if (file == NULL)
        return NULL;
    size_t room = 1 << 16;
    uint8_t *bytes = malloc(room);
    *size = 0;
    while (bytes != NULL) {
        size_t read = fread(bytes + *size, 1, room - *size, file);
        *size += read;
        if (read == 0)
            break;
        if (*size == room) {
            uint8_t *larger = realloc(bytes, room *= 2);
            if (larger == NULL)
                free(bytes);
            bytes = larger;
        }
    }
    if (bytes != NULL && ferror(file)) {
        free(bytes);
        bytes = NULL;
    }
    fclose(file);
    return bytes;
}

/* Writes bytes to a file: whether it went well. */
static int write_file(const char *name, const uint8_t *bytes, size_t size)
{
    FILE *file = fopen(name, "wb");
    if (file == NULL)
        return 0;
    size_t written = fwrite(bytes, 1, size, file);
    return fclose(file) == 0 && written == size;
}

/* Subsets one file into another: how the program ends. */
static int run(const char *in, const char *out, uint32_t index, const uint16_t *glyphs, size_t count)
{
    size_t size;
    uint8_t *font = read_file(in, &size);
    if (font == NULL) {
        fprintf(stderr, "cannot read %s\n", in);
        return NO_FILE;
    }
    /* All is kept: options that say otherwise would be in place of NULL. */
    subsetter_made made;
    uint32_t status = subsetter_make_subset(font, size, index, glyphs, count, NULL, &made);
    free(font);
    if (status != SUBSETTER_DONE) {
        fprintf(stderr, "%s\n", subsetter_status_text(status));
        return REFUSED;
    }
    int is_written = write_file(out, made.font, made.font_size);
    subsetter_free(&made);
    if (!is_written) {
        fprintf(stderr, "cannot write %s\n", out);
        return NO_FILE;
    }
    return 0;
}

int main(int argc, char **argv)
{
    uint32_t index;
    size_t count = 0;
    uint16_t *glyphs = NULL;
    if (argc == 5 && is_number(argv[3], &index)) {
        /* (a list has at most as many numbers as characters) */
        glyphs = malloc((strlen(argv[4]) + 1) * sizeof *glyphs);
        if (glyphs == NULL) {
            fprintf(stderr, "%s\n", subsetter_status_text(SUBSETTER_OUT_OF_MEMORY));
            return REFUSED;
        }
        count = read_glyphs(argv[4], glyphs);
    }
    int end = WRONG_USAGE;
    if (count > 0)
        end = run(argv[1], argv[2], index, glyphs, count);
    else
        fprintf(stderr, "usage: subset IN OUT INDEX GID[,GID..]\n");
    free(glyphs);
    return end;
}
