/* Measures HarfBuzz: `harfbuzz_bench --list FILE`, where FILE has lines FONT INDEX GLYPHS COUNT of one face, as the other drivers read it.
 *
 * The face is preprocessed once, before the clock starts. The clock runs round each call of `hb_subset_or_fail` and the bytes of
 * its answer. Subroutines are resolved, glyph 0 keeps its outline and glyphs their names, and no layout tables and no `cmap` are kept, as
 * in the other drivers (a `cmap` of thousands of jumbled glyphs would also overflow, which HarfBuzz refuses). It takes a set of glyphs and
 * numbers them by their old order, so its bytes aren't those of the others. It prints `ok LEAST LENGTH`, or `error`. */
#include <hb-ot.h>
#include <hb-subset.h>
#include <stdint.h>
#include <stdio.h>
#include <stdlib.h>
#include <string.h>
#include <time.h>

/* Adds the glyphs of a list of numbers and ranges, as `3,10-12`. */
static void add_glyphs(hb_set_t *set, char *list) {
    while (*list) {
        unsigned first = strtoul(list, &list, 10), last = first;
        if (*list == '-') last = strtoul(list + 1, &list, 10);
        hb_set_add_range(set, first, last);
        if (*list && *list++ != ',') exit(2);
    }
}

static hb_subset_input_t *input_of(char *glyphs) {
    static const char *const dropped[] = {"GSUB", "GPOS", "GDEF", "BASE", "JSTF", "MATH", "morx", "kerx", "kern", "cmap"};
    hb_subset_input_t *input = hb_subset_input_create_or_fail();
    if (!input) exit(1);
    for (size_t k = 0; k < sizeof dropped / sizeof *dropped; k++)
        hb_set_add(hb_subset_input_set(input, HB_SUBSET_SETS_DROP_TABLE_TAG), hb_tag_from_string(dropped[k], 4));
    hb_subset_input_set_flags(
        input, HB_SUBSET_FLAGS_DESUBROUTINIZE | HB_SUBSET_FLAGS_NOTDEF_OUTLINE | HB_SUBSET_FLAGS_GLYPH_NAMES);
    add_glyphs(hb_subset_input_glyph_set(input), glyphs);
    return input;
}

static uint64_t now(void) {
    struct timespec at;
    clock_gettime(CLOCK_MONOTONIC, &at);
    return (uint64_t)at.tv_sec * 1000000000 + (uint64_t)at.tv_nsec;
}

int main(int count, char **words) {
    static char font[4096], glyphs[1 << 20];
    unsigned index, calls, length = 0;
    FILE *list = count == 3 && !strcmp(words[1], "--list") ? fopen(words[2], "r") : NULL;
    hb_face_t *face = NULL;
    while (list && fscanf(list, "%4095s %u %1048575s %u", font, &index, glyphs, &calls) == 4) {
        if (!face) face = hb_subset_preprocess(hb_face_create(hb_blob_create_from_file_or_fail(font), index));
        hb_subset_input_t *input = input_of(glyphs);
        uint64_t least = UINT64_MAX;
        for (; calls && least; calls--) {
            uint64_t start = now();
            hb_face_t *made = hb_subset_or_fail(face, input);
            hb_blob_t *bytes = made ? hb_face_reference_blob(made) : NULL;
            uint64_t took = bytes ? now() - start : 0;
            least = took < least ? took : least;
            length = bytes ? hb_blob_get_length(bytes) : 0;
            hb_blob_destroy(bytes);
            hb_face_destroy(made);
        }
        hb_subset_input_destroy(input);
        if (least) printf("ok %llu %u\n", (unsigned long long)least, length);
        else puts("error");
    }
    return !face;
}
