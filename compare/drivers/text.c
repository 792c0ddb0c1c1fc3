/* The operators of runs, and the objects of their font, as text.rs has them: text FONT RUNS VERTICAL */
#include "subsetter.h"
#include <stdio.h>
#include <stdlib.h>

static uint8_t data[1 << 26];
static int numbers[1 << 16];

static void print(uint32_t status, subsetter_pdf_objects *made) {
    if (status != SUBSETTER_DONE) exit((int)status);
    fwrite(made->bytes, 1, made->size, stdout);
    subsetter_free_pdf_objects(made);
}

int main(int count, char **words) {
    FILE *file = fopen(words[1], "rb"), *runs = fopen(words[count - 2], "r");
    size_t size = fread(data, 1, sizeof data, file), read = 0;
    subsetter_pdf_options options = SUBSETTER_DEFAULT_PDF_OPTIONS;
    subsetter_text text;
    subsetter_font font;
    subsetter_pdf_objects made;
    while (read < sizeof numbers / sizeof *numbers && fscanf(runs, "%d", &numbers[read]) == 1) read++;
    options.direction = *words[count - 1] == '1' ? SUBSETTER_VERTICAL : 0;
    options.drop = SUBSETTER_DROP_HINTING;
    options.cid_set = options.rights = 1;
    /* (the other calls refuse a text or a font that isn't there) */
    subsetter_new_text(data, size, 0, NULL, 0, &options, &text);
    for (int *it = numbers; it < numbers + read; it += 3 + it[1] + 6 * it[2])
        print(subsetter_show_shaped(&text, (subsetter_shaped *)(it + 3 + it[1]), it[2], it + 3, it[1], 32, it[0], SUBSETTER_ORDER_VISUAL, 24000, &made), &made);
    subsetter_make_text_font(&text, &options, &font);
    print(subsetter_make_objects(&font, 7, &made), &made);
}
