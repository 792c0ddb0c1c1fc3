/* A PDF of lines in five scripts that HarfBuzz shapes (-lharfbuzz), one of them a column; readers copy and find their text. */
#include <hb.h>
#include "subsetter.h"

#include <stdio.h>
#include <stdlib.h>
#include <string.h>

enum { FONT_COUNT = 4, LINE_COUNT = 5, OBJECTS = 64 };
static const char *const FONTS[FONT_COUNT] = {
    "/usr/share/fonts/truetype/dejavu/DejaVuSans.ttf", "/usr/share/fonts/truetype/lohit-devanagari/Lohit-Devanagari.ttf",
    "/usr/share/fonts/truetype/tlwg/Garuda.ttf", "/usr/share/fonts/opentype/ipaexfont-mincho/ipaexm.ttf"};
/* The font of a line, its direction, where it begins, and its text. */
static const struct line {
    int font;
    hb_direction_t direction;
    const char *place, *text;
} LINES[LINE_COUNT] = {
    {0, HB_DIRECTION_LTR, "80 200", "Hello, Ελλάδα, office"},
    {0, HB_DIRECTION_RTL, "80 160", "سلام لا"},
    {1, HB_DIRECTION_LTR, "80 120", "हिन्दी क्षत्रिय"},
    {2, HB_DIRECTION_LTR, "80 80", "ภาษาไทยที่นี่"},
    {3, HB_DIRECTION_TTB, "48 220", "吾輩は猫である"}};

static FILE *file;
/* Where each object begins. Those of the lines have the numbers after the page's 3, and those of the fonts follow. */
static long places[OBJECTS];

static void demand(int is_so, const char *else_said)
{
    if (!is_so) {
        fprintf(stderr, "%s\n", else_said);
        exit(1);
    }
}

static void done(uint32_t status) { demand(status == SUBSETTER_DONE, subsetter_status_text(status)); }

static void begin(int number, const char *front)
{
    places[number] = ftell(file);
    fprintf(file, "%d 0 obj\n<< %s", number, front);
}

/* Writes what shows a line, shaped at the scale of the font's units, in 24 points. */
static void show(subsetter_text *text, hb_font_t *font, const struct line *line)
{
    char front[64];
    const int size = snprintf(front, sizeof front, "BT /F%d 24 Tf %s Td ", line->font, line->place);
    unsigned count;
    subsetter_pdf_objects run;
    hb_buffer_t *buffer = hb_buffer_create();
    hb_buffer_add_utf8(buffer, line->text, -1, 0, -1);
    hb_buffer_set_direction(buffer, line->direction);
    hb_buffer_guess_segment_properties(buffer);
    hb_shape(font, buffer, NULL, 0);
    const hb_glyph_info_t *infos = hb_buffer_get_glyph_infos(buffer, &count);
    subsetter_shaped *shaped = calloc(count, sizeof *shaped);
    demand(shaped != NULL, "out of memory");
    subsetter_hb_shaped(infos, hb_buffer_get_glyph_positions(buffer, NULL), count, shaped);
    /* (HarfBuzz's directions are in this library's order) */
    const uint32_t direction = line->direction - HB_DIRECTION_LTR;
    done(subsetter_show_shaped(text, shaped, count, line->text, strlen(line->text), 8, direction, SUBSETTER_ORDER_VISUAL, 24000, &run));
    fprintf(file, "/Length %zu >>\nstream\n%s%.*sET\nendstream\nendobj\n", (size_t)size + run.size + 2, front, (int)run.size, (const char *)run.bytes);
    subsetter_free_pdf_objects(&run);
    free(shaped);
    hb_buffer_destroy(buffer);
}

int main(void)
{
    int numbers[FONT_COUNT], next = 4 + LINE_COUNT;
    file = fopen("hello.pdf", "wb");
    demand(file != NULL, "cannot write hello.pdf");
    fputs("%PDF-1.7\n", file);
    for (int i = 0; i < FONT_COUNT; i++) {
        unsigned size;
        subsetter_text text;
        subsetter_font made;
        subsetter_pdf_objects objects;
        subsetter_pdf_options options = SUBSETTER_DEFAULT_PDF_OPTIONS;
        options.direction = i == 3 ? SUBSETTER_VERTICAL : SUBSETTER_HORIZONTAL;
        hb_blob_t *blob = hb_blob_create_from_file(FONTS[i]);
        hb_face_t *face = hb_face_create(blob, 0);
        hb_font_t *font = hb_font_create(face);
        const char *data = hb_blob_get_data(blob, &size);
        done(subsetter_new_text((const uint8_t *)data, size, 0, NULL, 0, &options, &text));
        /* The runs come first, and then the font for all of them. */
        for (int k = 0; k < LINE_COUNT; k++)
            if (LINES[k].font == i) {
                begin(4 + k, "");
                show(&text, font, &LINES[k]);
            }
        numbers[i] = next;
        done(subsetter_make_text_font(&text, NULL, &made));
        done(subsetter_make_objects(&made, (uint32_t)next, &objects));
        for (size_t k = 0; k < objects.offset_count; k++)
            places[next++] = ftell(file) + (long)objects.offsets[k];
        fwrite(objects.bytes, 1, objects.size, file);
        subsetter_free_pdf_objects(&objects);
        subsetter_free_font(&made);
        subsetter_free_text(&text);
        hb_font_destroy(font);
        hb_face_destroy(face);
        hb_blob_destroy(blob);
    }
    begin(1, "/Type /Catalog /Pages 2 0 R >>\nendobj\n");
    begin(2, "/Type /Pages /Count 1 /Kids [3 0 R] >>\nendobj\n");
    begin(3, "/Type /Page /Parent 2 0 R /MediaBox [0 0 400 240] /Contents [4 0 R 5 0 R 6 0 R 7 0 R 8 0 R] /Resources << /Font <<");
    for (int i = 0; i < FONT_COUNT; i++)
        fprintf(file, " /F%d %d 0 R", i, numbers[i]);
    fputs(" >> >> >>\nendobj\n", file);
    const long table = ftell(file);
    fprintf(file, "xref\n0 %d\n0000000000 65535 f \n", next);
    for (int i = 1; i < next; i++)
        fprintf(file, "%010ld 00000 n \n", places[i]);
    fprintf(file, "trailer\n<< /Size %d /Root 1 0 R >>\nstartxref\n%ld\n%%%%EOF\n", next, table);
    demand(!ferror(file) && fclose(file) == 0, "cannot write hello.pdf");
    return 0;
}
