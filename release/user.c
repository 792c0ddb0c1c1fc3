/* A program of somebody who installed the package for C: user FONT OUT GLYPH.. It prints the
 * version, the error for the font's first hundred bytes, the CIDs and the widths. */
#include <subsetter.h>

#include <stdio.h>
#include <stdlib.h>
#include <string.h>

static void print_list(const char *name, size_t count, const subsetter_made *made, int of_widths)
{
    printf("%s ", name);
    for (size_t i = 0; i < count; i++)
        printf(i == 0 ? "%lu" : ",%lu", of_widths ? (unsigned long)made->widths[i] : (unsigned long)made->cids[i]);
    printf("\n");
}

int main(int count, char **words)
{
    static uint8_t font[1 << 24];
    uint16_t glyphs[64];
    size_t glyph_count = 0, size;
    subsetter_made subset, embedded, none;
    FILE *file = count > 3 && count - 3 <= 64 ? fopen(words[1], "rb") : NULL;
    if (file == NULL)
        return 2;
    size = fread(font, 1, sizeof font, file);
    fclose(file);
    for (int i = 3; i < count; i++)
        glyphs[glyph_count++] = (uint16_t)strtoul(words[i], NULL, 10);
    if (subsetter_version() != SUBSETTER_VERSION)
        return 3;
    printf("version %s\n", SUBSETTER_VERSION_TEXT);
    printf("refused %s\n", subsetter_status_text(subsetter_make_subset(font, 100, 0, glyphs, glyph_count, NULL, &none)));
    if (subsetter_make_subset(font, size, 0, glyphs, glyph_count, NULL, &subset) != SUBSETTER_DONE
        || subsetter_make_embedded(font, size, 0, glyphs, glyph_count, NULL, &embedded) != SUBSETTER_DONE
        || subset.font_size != embedded.font_size || memcmp(subset.font, embedded.font, subset.font_size) != 0)
        return 4;
    print_list("cids", embedded.cid_count, &embedded, 0);
    print_list("widths", embedded.width_count, &embedded, 1);
    file = fopen(words[2], "wb");
    if (file == NULL || fwrite(subset.font, 1, subset.font_size, file) != subset.font_size || fclose(file) != 0)
        return 5;
    subsetter_free(&subset);
    subsetter_free(&embedded);
    return 0;
}
