/* Each row of pdf.txt by the calls for PDF, with its objects: pdf_test FOLDER PACKED
 *
 * Then the sheet; options and texts that are refused; and each request for memory refused in turn.
 * FOLDER has the rows and their fonts, PACKED those of TrueType. SUBSETTER_BY_CARGO is for the library of bindings/capi, whose empty lists are null. */
/* What the header takes of hb.h: HarfBuzz's structs have these fields at their front. */
#include <stdint.h>
#define HB_H
typedef struct {
    uint32_t codepoint, mask, cluster, var1, var2;
} hb_glyph_info_t;
typedef struct {
    int32_t x_advance, y_advance, x_offset, y_offset, var;
} hb_glyph_position_t;

#include "subsetter.h"

#include "counted.h"

#include <stdarg.h>

/* ---- rows */

enum { FIELDS = 64, ENTRIES = 512, CHARACTERS = 1024, COORDINATES = 4, TEXT = 1 << 16 };

struct field {
    const char *name, *value;
};

struct row {
    struct field fields[FIELDS];
    size_t count;
    const char *name;
    uint8_t *font;
    size_t font_size, glyph_count, text_count, coordinate_count;
    uint16_t glyphs[ENTRIES];
    uint32_t text[CHARACTERS];
    size_t ends[ENTRIES];
    subsetter_coordinate coordinates[COORDINATES];
    subsetter_pdf_options options;
};

/* What the calls take of a row. */
#define FONT row->font, row->font_size, 0
#define PLACE row->coordinates, row->coordinate_count
#define SHOWN row->glyphs, row->glyph_count, row->text, row->text_count, row->ends, row->glyph_count
/* No coordinates; no coordinates, glyphs and texts. */
#define NO_PLACE NULL, 0
#define NOTHING NO_PLACE, NULL, 0, NULL, 0, NULL, 0

static const char *folder, *packed;

/* A file of the folders. */
static uint8_t *file_of(const char *name, size_t *size)
{
    char path[4096];
    snprintf(path, sizeof path, "%s/%s", strstr(name, ".ttf") ? packed : folder, name);
    return content(path, size);
}

static const char *value(const struct row *row, const char *name)
{
    for (size_t i = 0; i < row->count; i++)
        if (strcmp(row->fields[i].name, name) == 0)
            return row->fields[i].value;
    return NULL;
}

/* Glyphs with their text, as `1:0041 5:0066,0069 7:`. */
static void read_shown(struct row *row, const char *words)
{
    while (*words != 0) {
        char *end;
        row->glyphs[row->glyph_count] = (uint16_t)strtoul(words, &end, 10);
        for (end++; *end != 0 && *end != ' '; end += *end == ',')
            row->text[row->text_count++] = (uint32_t)strtoul(end, &end, 16);
        row->ends[row->glyph_count++] = row->text_count;
        words = end + (*end == ' ');
    }
}

static void read_coordinates(struct row *row, const char *words)
{
    while (*words != 0 && *words != '-') {
        char *end;
        subsetter_coordinate *at = &row->coordinates[row->coordinate_count++];
        at->tag = SUBSETTER_TAG(words[0], words[1], words[2], words[3]);
        at->value = (int32_t)(strtod(words + 5, &end) * 65536);
        words = end + (*end == ',');
    }
}

static subsetter_pdf_options defaults(void)
{
    const subsetter_pdf_options all = SUBSETTER_DEFAULT_PDF_OPTIONS;
    return all;
}

static void read_options(struct row *row, const char *words)
{
    subsetter_pdf_options *it = &row->options;
    const struct {
        const char *word;
        uint32_t *field, number;
    } known[] = {
        {"direction=Vertical", &it->direction, SUBSETTER_VERTICAL}, {"codes=Source", &it->codes, SUBSETTER_CODES_SOURCE},
        {"codes=EachText", &it->codes, SUBSETTER_CODES_EACH_TEXT}, {"bounds=Kept", &it->bounds, SUBSETTER_BOUNDS_KEPT},
        {"program=OpenType", &it->program, SUBSETTER_PROGRAM_OPENTYPE}, {"rights=Held", &it->rights, SUBSETTER_RIGHTS_HELD},
        {"cid_set", &it->cid_set, 1},
    };
    *it = defaults();
    it->drop = SUBSETTER_DROP_HINTING;
    for (size_t i = 0; i < sizeof known / sizeof *known; i++)
        if (strstr(words, known[i].word) != NULL)
            *known[i].field = known[i].number;
}

/* Takes a row of a text, and returns what is after it; null after the last one. */
static char *read_row(struct row *row, char *text)
{
    memset(row, 0, sizeof *row);
    while (*text == '#' || *text == '\n')
        text = strchr(text, '\n') + 1;
    if (*text == 0)
        return NULL;
    while (*text != 0 && *text != '\n') {
        char *end = strchr(text, '\n'), *blank = memchr(text, ' ', (size_t)(end - text));
        struct field *field = &row->fields[row->count++];
        field->name = text;
        field->value = blank == NULL ? "" : blank + 1;
        *(blank == NULL ? end : blank) = 0;
        *end = 0;
        for (; text < end; text++)
            *text = *text == '~' ? '\n' : *text;
        text++;
    }
    row->name = value(row, "row");
    row->font = file_of(value(row, "font"), &row->font_size);
    read_shown(row, value(row, "shown"));
    read_coordinates(row, value(row, "coordinates"));
    read_options(row, value(row, "options"));
    return text;
}

/* ---- answers as text */

static char said[TEXT];
static size_t said_size;

static void say(const char *format, ...)
{
    va_list words;
    va_start(words, format);
    said_size += (size_t)vsnprintf(said + said_size, TEXT - said_size, format, words);
    va_end(words);
}

/* Compares what was said with a field; what neither has is right. */
static void compare(const struct row *row, const char *name)
{
    const char *wanted = value(row, name);
    if (wanted != NULL && said_size > 0 && said[said_size - 1] == ' ')
        said[said_size - 1] = 0;
    check(strcmp(said, wanted == NULL ? "" : wanted) == 0, name, row->name);
    said_size = 0;
    said[0] = 0;
}

/* (The other values of a font are those of its objects.) */
static void compare_lists(const struct row *row, const subsetter_pdf_font *font)
{
#define LIST(NAME, FORMAT, LIST, COUNT)                 \
    for (size_t i = 0; i < font->COUNT; i++)            \
        say(FORMAT, (unsigned)font->LIST[i]);           \
    compare(row, NAME)
    LIST("program", "%02x", program, program_size);
    LIST("cids", "%u ", cids, cid_count);
    LIST("codes", "%u ", codes, code_count);
    LIST("is_said", "%u ", is_said, said_count);
    LIST("widths", "%u ", widths, width_count);
    LIST("name", "%c", font_name, font_name_size);
    LIST("to_unicode", "%c", to_unicode, to_unicode_size);
    LIST("encoding", "%c", encoding, encoding_size);
    check(font->is_vertical || font->column_count == 0, "columns of horizontal writing", row->name);
}

/* ---- objects */

/* Whether a list has no items, and the pointer that its library gives such a list. */
static int is_empty(const void *items, size_t count)
{
#ifdef SUBSETTER_BY_CARGO
    return count == 0 && items == NULL;
#else
    return count == 0 && items != NULL;
#endif
}

static int are_no_objects(const subsetter_pdf_objects *made)
{
    return is_empty(made->bytes, made->size) && is_empty(made->offsets, made->offset_count);
}

static int contains(const subsetter_pdf_objects *file, const void *part, size_t size)
{
    for (size_t i = 0; i + size <= file->size; i++)
        if (memcmp(file->bytes + i, part, size) == 0)
            return 1;
    return 0;
}

/* ---- calls */

static uint32_t make(const struct row *row, const subsetter_pdf_options *options, subsetter_pdf_font *font)
{
    memset(font, FILLED, sizeof *font);
    return subsetter_make_pdf_font(FONT, PLACE, SHOWN, options, font);
}

static uint32_t sheet(const struct row *row, const subsetter_pdf_font *font, uint32_t layout, subsetter_pdf_objects *made)
{
    return subsetter_make_pdf_sheet(font, SHOWN, layout, made);
}

/* (there may be room after the last number) */
enum { NUMBERS_END = offsetof(subsetter_pdf_font, may_embed_outlines) + 4 };

/* Whether a font was given back: all of it is 0. */
static int is_given_back(const subsetter_pdf_font *font)
{
    static const subsetter_pdf_font nothing;
    return memcmp(font, &nothing, NUMBERS_END) == 0;
}

/* Whether all sizes, counts and numbers of a font are 0. The pointer to an empty list says nothing. */
static int is_nothing(const subsetter_pdf_font *font)
{
    subsetter_pdf_font sizes = *font;
    sizes.program = sizes.font_name = sizes.to_unicode = sizes.encoding = sizes.encoding_name = sizes.cid_set = sizes.is_said = NULL;
    sizes.cids = sizes.codes = NULL;
    sizes.widths = NULL;
    sizes.columns = NULL;
    return is_given_back(&sizes);
}

/* The status of a font, which is nothing where it is refused, and is given back. */
static uint32_t status_of(const struct row *row, const subsetter_pdf_options *options)
{
    subsetter_pdf_font font;
    uint32_t status = make(row, options, &font);
    check(status == 0 || is_nothing(&font), "what is left of no font", "a status");
    subsetter_free_pdf_font(&font);
    return status;
}

/* Whether two fonts have the same lists and numbers. */
static int are_same(const subsetter_pdf_font *a, const subsetter_pdf_font *b)
{
    return SAME(program, program_size) && SAME(cids, cid_count) && SAME(codes, code_count) && SAME(is_said, said_count)
        && SAME(widths, width_count) && SAME(columns, column_count) && SAME(font_name, font_name_size) && SAME(to_unicode, to_unicode_size)
        && SAME(encoding, encoding_size) && SAME(encoding_name, encoding_name_size) && SAME(cid_set, cid_set_size)
        && memcmp(&a->kind, &b->kind, NUMBERS_END - offsetof(subsetter_pdf_font, kind)) == 0;
}

static int are_same_objects(const subsetter_pdf_objects *a, const subsetter_pdf_objects *b)
{
    return SAME(bytes, size) && SAME(offsets, offset_count);
}

static uint32_t make_whole(const struct row *row, const subsetter_pdf_options *options, subsetter_font *font)
{
    memset(font, FILLED, sizeof *font);
    return subsetter_make_font(FONT, PLACE, SHOWN, options, font);
}

/* Whether all of a font is 0 or an empty list. */
static int is_no_whole(const subsetter_font *font)
{
    return font->size == 0 && font->units_per_em == 0 && is_nothing(&font->pdf) && is_empty(font->exact_widths, font->exact_width_count)
        && is_empty(font->unknown_axes, font->unknown_axis_count) && is_empty(font->glyphs, font->glyph_count)
        && is_empty(font->text, font->text_count) && is_empty(font->ends, font->end_count)
        && is_empty(font->cid_to_gid_map, font->cid_to_gid_map_size);
}

static uint32_t make_parts(const subsetter_font *font, const uint32_t *numbers, uint32_t count, subsetter_pdf_parts *parts)
{
    memset(parts, FILLED, sizeof *parts);
    uint32_t status = subsetter_make_pdf_parts(font, numbers, count, parts);
    check(status == 0 || is_empty(parts->parts, parts->part_count), "what is left of no parts", "parts");
    return status;
}

/* ---- the rows' own calls */

/* The dictionaries of a row are those of its objects, beside each stream of the font; the older call makes the same. */
static void compare_objects(const struct row *row, const subsetter_font *font)
{
    const subsetter_pdf_font *it = &font->pdf;
    subsetter_pdf_objects made, older;
    size_t count = 0;
    check(subsetter_make_objects(font, 4, &made) == 0 && subsetter_make_pdf_objects(it, 4, &older) == 0 && are_same_objects(&made, &older), "objects", row->name);
    subsetter_free_pdf_objects(&older);
    for (size_t i = 0; i < row->count; i++)
        if (strcmp(row->fields[i].name, "object") == 0) {
            char front[32];
            const char *dictionary = strchr(row->fields[i].value, ' ') + 1;
            snprintf(front, sizeof front, "%d 0 obj\n", (int)count + 4);
            check(contains(&made, dictionary, strlen(dictionary)), "a dictionary", row->name);
            check(count < made.offset_count && memcmp(made.bytes + made.offsets[count++], front, strlen(front)) == 0, "an offset", row->name);
        }
    check(count == made.offset_count && contains(&made, it->program, it->program_size) && contains(&made, it->to_unicode, it->to_unicode_size)
        && contains(&made, it->cid_set, it->cid_set_size) && contains(&made, it->encoding, it->encoding_size), "the streams", row->name);
    for (int turn = 0; turn < 2; turn++) {
        subsetter_free_pdf_objects(&made);
        check(made.bytes == NULL && made.size == 0 && made.offsets == NULL && made.offset_count == 0, "what is left of objects", row->name);
    }
}

/* The sheets of both layouts have the font's objects; the older call makes the same. */
static void compare_sheets(const struct row *row, const subsetter_font *font)
{
    for (uint32_t layout = 0; layout < 2; layout++) {
        subsetter_pdf_objects made, older, own;
        check(subsetter_make_sheet(font, layout, &made) == 0 && sheet(row, &font->pdf, layout, &older) == 0 && are_same_objects(&made, &older), "a sheet", row->name);
        check(subsetter_make_objects(font, 5, &own) == 0 && contains(&made, own.bytes, own.size), "the objects in the sheet", row->name);
        check(is_empty(made.offsets, made.offset_count) && memcmp(made.bytes, "%PDF-1.7\n", 9) == 0 && memcmp(made.bytes + made.size - 6, "%%EOF\n", 6) == 0, "a whole file", row->name);
        check(contains(&made, "[0 0 595 842]", 13) == (layout == SUBSETTER_LAYOUT_GRID), "the pages", row->name);
        subsetter_free_pdf_objects(&made);
        subsetter_free_pdf_objects(&older);
        subsetter_free_pdf_objects(&own);
    }
}

/* The parts of a font are in its objects, in which a CIDFont of TrueType outlines refers to a CIDToGIDMap; other numbers are refused. */
static void compare_parts(const struct row *row, const subsetter_font *font)
{
    uint32_t numbers[9] = {7, 8, 9, 10, 11, 12, 13, 14, 15}, count = subsetter_pdf_part_count(font);
    subsetter_pdf_objects objects;
    subsetter_pdf_parts parts;
    check(make_parts(font, numbers, count, &parts) == 0 && parts.part_count == count, "parts", row->name);
    check(subsetter_make_objects(font, 7, &objects) == 0 && objects.offset_count == count, "objects", row->name);
    check(contains(&objects, "/CIDToGIDMap 12 0 R /DW ", 24) == (font->cid_to_gid_map_size > 0 && font->pdf.kind == SUBSETTER_KIND_TRUETYPE), "a map", row->name);
    for (size_t i = 0; i < parts.part_count; i++) {
        const subsetter_pdf_part *part = &parts.parts[i];
        const uint8_t *at = objects.bytes + objects.offsets[i];
        char front[32];
        size_t length = (size_t)snprintf(front, sizeof front, "%u 0 obj\n<< ", (unsigned)part->number);
        check(memcmp(at, front, length) == 0 && memcmp(at + length, part->entries, part->entries_size) == 0, "a part", row->name);
        check(part->is_stream ? contains(&objects, part->stream, part->stream_size) : part->stream_size == 0, "its stream", row->name);
        for (size_t k = 0; k < part->string_count; k++)
            check(part->entries[part->strings[k].start] == '(' && part->entries[part->strings[k].end - 1] == ')', "a string", row->name);
        check(part->string_count == (part->role == SUBSETTER_ROLE_CID_FONT || part->role == SUBSETTER_ROLE_ENCODING ? 2 : 0), "strings", row->name);
    }
    subsetter_free_pdf_objects(&objects);
    for (int turn = 0; turn < 2; turn++) {
        subsetter_free_pdf_parts(&parts);
        check(parts.parts == NULL && parts.part_count == 0, "what is left of parts", row->name);
    }
    check(make_parts(font, numbers, count - 1, &parts) == 16 && make_parts(font, numbers, count + 1, &parts) == 16, "their count", row->name);
    for (uint32_t place = 0; place < count; place++) {
        numbers[place] = place == 0 ? 8 : 7;
        check(make_parts(font, numbers, count, &parts) == 16, "a number twice", row->name);
        numbers[place] = 0;
        check(make_parts(font, numbers, count, &parts) == 16, "no number", row->name);
        numbers[place] = 7 + place;
    }
}

/* What the newer struct has besides, and what needs no font. */
static void compare_more(const struct row *row, const subsetter_font *font)
{
    const subsetter_pdf_font *it = &font->pdf;
    const size_t count = row->glyph_count;
    uint16_t codes[ENTRIES], widths[ENTRIES], heights[ENTRIES];
    uint32_t units;
    size_t length, differing = 0;
    check(is_same(font->glyphs, 2 * font->glyph_count, row->glyphs, 2 * count) && is_same(font->text, 4 * font->text_count, row->text, 4 * row->text_count)
              && is_same(font->ends, font->end_count * sizeof *font->ends, row->ends, count * sizeof *row->ends), "its entries", row->name);
    check(subsetter_codes_of(SHOWN, row->options.codes, codes, ENTRIES, &length) == 0 && is_same(codes, 2 * length, it->codes, 2 * it->code_count), "codes", row->name);
    check(count == 0 || (subsetter_codes_of(SHOWN, 0, codes, count - 1, &length) == 8 && length == count), "room for codes", row->name);
    check(subsetter_advances(FONT, PLACE, row->glyphs, count, NULL, widths, heights, &units) == 0 && units == font->units_per_em
        && font->exact_width_count == it->width_count, "advances", row->name);
    for (size_t i = 0; i < count; i++)
        differing += widths[i] != font->exact_widths[it->cids[i]];
    for (size_t i = 0; i < it->width_count; i++)
        differing += it->widths[i] != (2000 * font->exact_widths[i] + units) / (2 * units);
    check(differing == 0, "widths that differ", row->name);
}

/* A text in UTF-8: the same font as of its glyphs; an axis that the font doesn't have; and kinds of codes. */
static void try_utf8(const struct row *row)
{
    static const char name[] = "a text in UTF-8", *const wrong[] = {"\xff", "A\xc0\x80", "\xed\xa0\x80", "\xf4\x90\x80\x80", "\xe2\x82"};
    static const char text[] = "AH\xef\xac\x81\xf0\x9f\x98\x80z";
    const subsetter_coordinate at[] = {{SUBSETTER_TAG('n', 'o', 'n', 'e'), 7}, {SUBSETTER_TAG('n', 'o', 'n', 'e'), 8}};
    subsetter_pdf_objects sheets[2];
    subsetter_pdf_font older;
    subsetter_font font;
    uint16_t code;
    uint32_t units;
    size_t length;
    check(subsetter_make_pdf_font_of_utf8(FONT, at, 2, text, sizeof text - 1, NULL, &font) == 0, "status", name);
    check(font.glyph_count == 5 && font.text[2] == 0xfb01 && font.text[3] == 0x1f600 && font.ends[4] == 5 && font.glyphs[1] == 9 && font.glyphs[4] == 0
              && font.unknown_axis_count == 1 && font.unknown_axes[0] == at[0].tag, "what was looked up", name);
    check(subsetter_make_pdf_font(FONT, NO_PLACE, font.glyphs, 5, font.text, 5, font.ends, 5, NULL, &older) == 0 && are_same(&font.pdf, &older), "the font", name);
    check(subsetter_make_sheet(&font, 1, &sheets[0]) == 0 && subsetter_make_pdf_sheet(&older, font.glyphs, 5, font.text, 5, font.ends, 5, 1, &sheets[1]) == 0
              && are_same_objects(&sheets[0], &sheets[1]), "a sheet", name);
    subsetter_free_pdf_objects(&sheets[0]);
    subsetter_free_pdf_objects(&sheets[1]);
    subsetter_free_pdf_font(&older);
    subsetter_free_font(&font);
    for (size_t i = 0; i < sizeof wrong / sizeof *wrong; i++) {
        memset(&font, FILLED, sizeof font);
        check(subsetter_make_pdf_font_of_utf8(FONT, NO_PLACE, wrong[i], strlen(wrong[i]), NULL, &font) == 12 && is_no_whole(&font), "no UTF-8", name);
    }
    check(subsetter_make_pdf_font_of_utf8((const uint8_t *)"no", 2, 0, NULL, 0, "A", 1, NULL, &font) == 1 && is_no_whole(&font), "no font", name);
    memset(sheets, FILLED, sizeof sheets);
    check(subsetter_make_sheet(&font, 0, &sheets[0]) == 10 && are_no_objects(&sheets[0]), "a sheet of no font", name);
    check(subsetter_make_objects(&font, 5, &sheets[1]) == 10 && are_no_objects(&sheets[1]), "objects of no font", name);
    for (uint32_t kind = 0; kind < 300; kind++)
        check(subsetter_codes_of(row->glyphs, 1, NULL, 0, (const size_t[]){0}, 1, kind, &code, 1, &length) == (kind < 3 ? 0 : 10) && length == (kind < 3), "a kind", name);
    check(subsetter_codes_of(row->glyphs, 1, NULL, 0, (const size_t[]){1}, 1, 0, &code, 1, &length) == 12 && length == 0, "no text", name);
    check(subsetter_advances((const uint8_t *)"no", 2, 0, NULL, 0, row->glyphs, 1, NULL, &code, &code, &units) == 1, "advances of no font", name);
}

static void answer(const struct row *row)
{
    static const uint8_t map[] = {0, 0, 0, 1};
    const char *error = value(row, "error");
    subsetter_font font;
    subsetter_pdf_font older;
    subsetter_pdf_objects objects;
    if (error != NULL) {
        check(status_of(row, &row->options) == (strcmp(error, "NotPermitted") == 0 ? SUBSETTER_NOT_PERMITTED : SUBSETTER_INVALID_TEXT), error, row->name);
        return;
    }
    if (make_whole(row, &row->options, &font) != 0 || make(row, &row->options, &older) != 0) {
        check(0, "the status", row->name);
        return;
    }
    check(font.size == sizeof font && are_same(&font.pdf, &older), "the older call", row->name);
    compare_lists(row, &older);
    compare_objects(row, &font);
    compare_sheets(row, &font);
    compare_more(row, &font);
    compare_parts(row, &font);
    font.cid_to_gid_map = map;
    font.cid_to_gid_map_size = sizeof map;
    compare_parts(row, &font);
    font.cid_to_gid_map_size = 0;
    for (int turn = 0; turn < 2; turn++) {
        static const subsetter_font zero;
        subsetter_free_pdf_font(&older);
        subsetter_free_font(&font);
        check(is_given_back(&older) && is_given_back(&font.pdf) && font.size == sizeof font && font.units_per_em == 0
                  && memcmp(&font.exact_widths, &zero.exact_widths, sizeof zero - offsetof(subsetter_font, exact_widths)) == 0, "what is left", row->name);
    }
    font.size--;
    check(subsetter_make_font_by_words(FONT, NOTHING, NULL, 0, &font) == 10 && font.size == sizeof font - 1
        && make_parts(&font, NULL, 0, &(subsetter_pdf_parts){NULL, 0}) == 10 && subsetter_make_objects(&font, 7, &objects) == 10
        && are_no_objects(&objects), "another size", row->name);
}

/* What the calls of a row make, up to the first that fails; the rest is 0. */
struct all {
    subsetter_font font, of_text;
    subsetter_pdf_objects objects, page, line, sheet;
    subsetter_pdf_parts parts;
    subsetter_text text;
};

/* The sheet of a line and of an empty one: a page for each, as long as its line. */
static uint32_t text_sheet(const subsetter_font *font, subsetter_pdf_objects *sheet)
{
    static const subsetter_line pages[] = {{(const uint8_t *)"[<0001>]TJ\n", 11, 2509}, {(const uint8_t *)"", 0, 400000}};
    return subsetter_make_text_sheet(font, pages, 2, sheet);
}

static uint32_t make_all(const struct row *row, struct all *it)
{
    static const uint32_t numbers[] = {9, 8, 7, 6, 5, 4, 3};
    static subsetter_item items[ENTRIES];
    const uint32_t direction = row->options.direction == SUBSETTER_VERTICAL ? SUBSETTER_TOP_TO_BOTTOM : SUBSETTER_LEFT_TO_RIGHT;
    uint32_t status = 0;
    for (size_t i = 0; i < row->glyph_count; i++)
        items[i] = (subsetter_item){row->glyphs[i], 0, i == 0 ? 0 : (uint32_t)row->ends[i - 1], (uint32_t)row->ends[i], 0, 0, 0, 0};
    memset(it, 0, sizeof *it);
#define STEP(CALL, IS_NOTHING) \
    if (status == 0 && (status = (CALL)) != 0) \
        check(IS_NOTHING, #CALL, row->name)
    STEP(make_whole(row, &row->options, &it->font), is_no_whole(&it->font));
    STEP(subsetter_make_pdf_objects(&it->font.pdf, 4, &it->objects), are_no_objects(&it->objects));
    STEP(subsetter_make_sheet(&it->font, 0, &it->page), are_no_objects(&it->page));
    STEP(make_parts(&it->font, numbers, subsetter_pdf_part_count(&it->font), &it->parts), it->parts.part_count == 0);
    STEP(subsetter_new_text(FONT, PLACE, &row->options, &it->text), it->text.units_per_em == 0);
    STEP(subsetter_show_run(&it->text, items, row->glyph_count, row->text, (uint32_t)row->text_count, direction, 0, 12000, &it->line),
        are_no_objects(&it->line) && it->text.pair_count == 0);
    STEP(subsetter_make_text_font(&it->text, &row->options, &it->of_text), is_no_whole(&it->of_text));
    STEP(text_sheet(&it->of_text, &it->sheet), are_no_objects(&it->sheet));
    return status;
}

static void free_all(struct all *it)
{
    subsetter_free_pdf_parts(&it->parts);
    subsetter_free_pdf_objects(&it->objects);
    subsetter_free_pdf_objects(&it->page);
    subsetter_free_pdf_objects(&it->line);
    subsetter_free_pdf_objects(&it->sheet);
    subsetter_free_font(&it->font);
    subsetter_free_font(&it->of_text);
    subsetter_free_text(&it->text);
}

/* Each request for memory is refused in turn: what is returned is whole, or nothing with status 7, and the codes of a text stay. Where a
 * smaller block is requested the call may go on. */
static void refuse(const struct row *row)
{
    struct all whole, it;
    size_t goes_on = 0, all = 0;
    const uint32_t wanted = make_all(row, &whole);
    check(wanted == 0 || value(row, "error") != NULL, "all that is made", row->name);
    for (int was_refused = 1; was_refused; all++) {
        long before = held;
        requests = 0;
        refused = all + 1;
        const uint32_t status = make_all(row, &it);
        was_refused = requests >= refused;
        refused = 0;
        check(status == wanted || (was_refused && status == 7), "a refused request", row->name);
        check(status != 0 || (are_same(&it.font.pdf, &whole.font.pdf) && are_same(&it.of_text.pdf, &whole.of_text.pdf) && are_same_objects(&it.objects, &whole.objects)
            && are_same_objects(&it.page, &whole.page) && are_same_objects(&it.line, &whole.line) && are_same_objects(&it.sheet, &whole.sheet)
            && it.parts.part_count == whole.parts.part_count && it.text.pair_count == whole.text.pair_count), "what isn't whole", row->name);
        goes_on += was_refused && status == 0;
        free_all(&it);
        check(held == before && it.text.pair_count == 0, "memory that isn't given back", row->name);
    }
    check(wanted != 0 || all > 50, "requests of the calls", row->name);
#ifdef SUBSETTER_BY_CARGO
    check(goes_on <= 2, "how many requests may be refused", row->name);
#endif
    free_all(&whole);
}

/* ---- what rows don't say */

enum { TOKENS = 1, TAG = 11, ALL_WORDS = 14 };
/* The greatest number of each word that isn't of a tag; of the tokens and of the bytes each is known. */
static const uint32_t MOST[ALL_WORDS] = {56, UINT32_MAX, 255, 7, UINT32_MAX, 1, 2, 1, 1, 1, 1, 0, 0, SUBSETTER_OWN_GLYPHS_NONE};

static uint32_t status_with(const struct row *row, size_t word, uint32_t number)
{
    subsetter_pdf_options options = defaults();
    (&options.size)[word] = number;
    return status_of(row, &options);
}

static void try_words(const struct row *row)
{
    static const char name[] = "an option";
    for (size_t word = TOKENS; word < ALL_WORDS; word += word == TAG - 1 ? 3 : 1) {
        const int is_any = MOST[word] == UINT32_MAX;
        check(status_with(row, word, MOST[word]) == 0, "the greatest", name);
        for (uint32_t i = 1; !is_any && i < 300 + 2 * HIGHS; i++)
            check(status_with(row, word, i < 300 ? MOST[word] + i : HIGH[(i - 300) / 2] + (i % 2 ? 1 : MOST[word])) == 10, "greater than known", name);
        for (int i = 1; is_any && i < HIGHS; i++)
            check(status_with(row, word, HIGH[i] + 1) == 0, "a large number", name);
    }
    /* The first word is the size of all. */
    for (uint32_t count = 1; count < 80; count++)
        for (int i = -1; i < HIGHS; i++) {
            uint32_t many[80] = {4 * count + (i < 0 ? 0 : HIGH[i])};
            subsetter_pdf_font font;
            check(subsetter_make_pdf_font_by_words(FONT, NO_PLACE, SHOWN, many, count, &font) == (i < 0 && count <= ALL_WORDS ? 0 : 10), "a list of words", name);
            subsetter_free_pdf_font(&font);
        }
}

static void try_options(const struct row *row)
{
    static const char name[] = "options";
    subsetter_pdf_font font;
    subsetter_pdf_options options = defaults();
    for (size_t word = 1; word < ALL_WORDS; word++)
        check((&options.size)[word] == 0, "a default", name);
    check(status_of(row, NULL) == 0, "none", name);
    /* Of a shorter struct the rest is 0, and a size that isn't known is refused. */
    options.cid_set = 1;
    for (uint32_t size = 0; size <= 56; size++) {
        options.size = size;
        uint32_t status = make(row, &options, &font);
        check(status == (size % 4 == 0 && size >= 4 ? 0 : 10), "a size", name);
        check(status != 0 || (font.cid_set_size > 0) == (size >= 40), "fields past the size", name);
        subsetter_free_pdf_font(&font);
    }
    options = defaults();
    options.tag[0] = SUBSETTER_LETTERS('Z', 'Y', 'X');
    options.tag[1] = SUBSETTER_LETTERS('W', 'V', 'U');
    check(make(row, &options, &font) == 0 && memcmp(font.font_name, "ZYXWVU+Made-Regular", 19) == 0, "a tag", name);
    options.bytes = (uint32_t)font.program_size;
    subsetter_free_pdf_font(&font);
    check(status_of(row, &options) == 0, "a bound that is just met", name);
    options.bytes--;
    check(status_of(row, &options) == 5, "a bound that is passed", name);
    /* Each letter of a tag is a capital, and what is in front of three is 0. */
    const uint32_t wrong[] = {SUBSETTER_LETTERS('@', 'B', 'C'), SUBSETTER_LETTERS('A', '[', 'C'), SUBSETTER_LETTERS('A', 'B', 'c'), 0x01414243, 0xff414243, 0};
    for (size_t i = 0; i < 12; i++) {
        options = defaults();
        options.tag[i % 2] = wrong[i / 2];
        options.tag[1 - i % 2] = SUBSETTER_LETTERS('A', 'M', 'Z');
        check(status_of(row, &options) == 10, "no tag", name);
    }
}

/* Tokens of a font that needs some: no bit of their number is lost. */
static void try_limits(void)
{
    static struct row row;
    row.font = file_of("made_version_1.otf", &row.font_size);
    read_shown(&row, "1:0041 2:0042 8:00C1");
    check(status_with(&row, TOKENS, 1) == 6, "too few", "tokens");
    for (int i = 0; i < HIGHS; i++)
        check(status_with(&row, TOKENS, HIGH[i] + 1) == 0, "many", "tokens");
    __real_free(row.font);
}

/* ---- texts */

/* Texts of two glyphs, their ends, and the status of a font and of a sheet of it. */
static const struct {
    uint32_t text[3];
    size_t text_count, ends[3], count;
    uint32_t status;
} TEXTS[] = {
    {{'A', 'B', 'C'}, 3, {1, 2}, 2, 0}, {{'A', 'B', 'C'}, 3, {0, 3}, 2, 0}, {{'A', 'B', 'C'}, 3, {2, 1}, 2, 12}, {{'A', 'B', 'C'}, 3, {1, 4}, 2, 12},
    {{'A', 'B', 'C'}, 3, {4, 4}, 2, 12}, {{'A', 'B', 'C'}, 3, {1}, 1, 12}, {{'A', 'B', 'C'}, 3, {1, 2, 3}, 3, 12},
    {{0, 0xd7ff}, 2, {1, 2}, 2, 0}, {{0xe000, 0x10ffff}, 2, {1, 2}, 2, 0}, {{'A', 0xd800}, 2, {1, 2}, 2, 12}, {{'A', 0xdfff}, 2, {1, 2}, 2, 12},
    {{'A', 0x110000}, 2, {1, 2}, 2, 12}, {{'A', 0xffffffff}, 2, {1, 2}, 2, 12},
};

static void check_text(const struct row *row, const subsetter_pdf_font *made, const uint32_t *text, size_t text_count, const size_t *ends, size_t count, uint32_t status)
{
    static const char name[] = "a text";
    subsetter_pdf_font font;
    subsetter_pdf_objects page;
    memset(&page, FILLED, sizeof page);
    check(subsetter_make_pdf_font(FONT, NO_PLACE, row->glyphs, 2, text, text_count, ends, count, NULL, &font) == status, "a font", name);
    check(status == 0 || is_nothing(&font), "what is left of a font", name);
    check(subsetter_make_pdf_sheet(made, row->glyphs, 2, text, text_count, ends, count, 0, &page) == status, "a sheet", name);
    check(status == 0 || are_no_objects(&page), "what is left of a sheet", name);
    subsetter_free_pdf_font(&font);
    if (status == 0)
        subsetter_free_pdf_objects(&page);
}

static void try_texts(const struct row *row)
{
    static const char name[] = "a text";
    const uint32_t text[] = {'A', 'B'};
    const size_t ends[] = {1, 2};
    const uint8_t *no_font = (const uint8_t *)"no";
    const subsetter_pdf_options unknown = {56, 0, 0, 0, 0, 9, 0, 0, 0, 0, 0, {0, 0}, 0};
    subsetter_pdf_font made, font;
    check(make(row, NULL, &made) == 0, "a font", name);
    for (size_t i = 0; i < sizeof TEXTS / sizeof *TEXTS; i++)
        check_text(row, &made, TEXTS[i].text, TEXTS[i].text_count, TEXTS[i].ends, TEXTS[i].count, TEXTS[i].status);
    for (unsigned bit = 2; bit < 8 * sizeof(size_t); bit++)
        for (int both = 0; both < 2; both++)
            check_text(row, &made, text, 2, (const size_t[]){1 + (both ? (size_t)1 << bit : 0), 2 + ((size_t)1 << bit)}, 2, 12);
    /* What comes first: options, texts, opening, permission. */
    check(subsetter_make_pdf_font(no_font, 2, 0, NULL, 0, row->glyphs, 2, text, 2, ends, 2, &unknown, &font) == 10, "options come first", name);
    check(subsetter_make_pdf_font(no_font, 2, 0, NULL, 0, row->glyphs, 2, text, 1, ends, 0, NULL, &font) == 12, "texts before opening", name);
    check(subsetter_make_pdf_font(no_font, 2, 0, NOTHING, NULL, &font) == 1, "opening", name);
    subsetter_free_pdf_font(&made);
}

/* ---- sheets and objects */

static void try_sheets(const struct row *row)
{
    static const char name[] = "a sheet";
    static const uint16_t codes[] = {10, 0xfb23};
    char string[12] = "-";
    subsetter_pdf_font font;
    subsetter_pdf_objects made;
    check(subsetter_string(codes, 2, string, 10) == 10 && strcmp(string, "-") == 0, "no room for a string", name);
    check(subsetter_string(codes, 2, string, 11) == 10 && strcmp(string, "<000AFB23>") == 0 && subsetter_string(NULL, 0, NULL, 0) == 2, "a string", name);
    check(make(row, NULL, &font) == 0, "a font", name);
    for (uint32_t i = 2; i < 300 + 2 * HIGHS; i++) {
        uint32_t layout = i < 300 ? i : HIGH[(i - 300) / 2] + i % 2;
        memset(&made, FILLED, sizeof made);
        check(sheet(row, &font, layout, &made) == 10 && are_no_objects(&made), "a layout", name);
    }
    for (int i = -1; i <= HIGHS; i++) {
        char front[32];
        uint32_t first = i < 0 ? 1 : i < HIGHS ? HIGH[i] + 1 : UINT32_MAX - 7;
        size_t length = (size_t)snprintf(front, sizeof front, "%u 0 obj\n", (unsigned)first + 4);
        check(subsetter_make_pdf_objects(&font, first, &made) == 0 && made.offset_count > 4 && !memcmp(made.bytes + made.offsets[4], front, length), "a number", name);
        subsetter_free_pdf_objects(&made);
    }
    memset(&made, FILLED, sizeof made);
    check(subsetter_make_pdf_objects(&font, UINT32_MAX - 6, &made) == 5 && are_no_objects(&made), "no number", name);
    subsetter_free_pdf_font(&font);
}

/* ---- memory that is given back */

struct list {
    const void *items;
    size_t count;
};

/* Each list alone is given back, by its own count; those of no items aren't, wherever they are. */
static void try_lists_alone(void)
{
    enum { LISTS = 11 };
    static const uint64_t nothing[2];
    static const size_t lists[] = {LISTS, sizeof(subsetter_made) / sizeof(struct list), sizeof(subsetter_pdf_objects) / sizeof(struct list)};
    _Static_assert(LISTS * sizeof(struct list) == offsetof(subsetter_pdf_font, kind), "these are the lists of a font");
    for (int kind = 0; kind < 3; kind++)
        for (size_t alone = 0; alone <= lists[kind]; alone++) {
            /* (after the lists are numbers) */
            union {
                struct list lists[LISTS];
                subsetter_pdf_font font;
                subsetter_made made;
                subsetter_pdf_objects objects;
            } it;
            long before = held;
            memset(&it, 0, sizeof it);
            for (size_t i = 0; i < lists[kind]; i++)
                it.lists[i] = i == alone ? (struct list){malloc(sizeof nothing), 1} : (struct list){nothing, 0};
            if (kind == 0)
                subsetter_free_pdf_font(&it.font);
            else if (kind == 1)
                subsetter_free(&it.made);
            else
                subsetter_free_pdf_objects(&it.objects);
            check(held == before && is_given_back(&it.font), "is given back", "a list alone");
        }
    subsetter_free(NULL);
    subsetter_free_pdf_font(NULL);
    subsetter_free_pdf_objects(NULL);
    subsetter_free_font(NULL);
    subsetter_free_pdf_parts(NULL);
    subsetter_free_text(NULL);
}

/* ---- glyphs of a text */

static void try_glyphs(const struct row *row)
{
    static const uint32_t text[] = {'A', 'H', 0x1f600, 'z'}, wrong[] = {'A', 0xdfff};
    const struct {
        const uint32_t *text;
        size_t font_size, text_count, room, length;
        uint32_t status;
        unsigned long refused;
    } calls[] = {
        {text, row->font_size, 4, 5, 4, 0, 0}, {text, row->font_size, 4, 3, 4, 8, 0}, {wrong, row->font_size, 2, 5, 0, 12, 0}, {text, 40, 4, 5, 0, 2, 0},
        {text, 2, 4, 0, 0, 1, 0}, {wrong, 2, 2, 5, 0, 12, 0}, {text, row->font_size, 4, 5, 0, 7, 1}, {text, 2, 4, 5, 0, 1, 1},
    };
    for (size_t i = 0; i < sizeof calls / sizeof *calls; i++) {
        uint16_t glyphs[5] = {7, 7, 7, 7, 7};
        size_t length = 9;
        requests = 0;
        refused = calls[i].refused;
        uint32_t status = subsetter_glyphs_of(row->font, calls[i].font_size, 0, calls[i].text, calls[i].text_count, glyphs, calls[i].room, &length);
        refused = 0;
        check(status == calls[i].status && length == calls[i].length, "status", "glyphs of a text");
        check(glyphs[4] == 7 && (status == 0 ? glyphs[0] == 1 && glyphs[1] == 9 && glyphs[2] == 6 && glyphs[3] == 0 : glyphs[0] == 7),
            "numbers", "glyphs of a text");
    }
}

/* ---- what Python has rows of, over the same library: room, memory and numbers */

/* The entries of a text, also where there is no room for the last one, or for the last place. */
static void try_read_text(const struct row *row)
{
    static const char name[] = "the entries of a text";
    static const uint32_t text[] = {0xfeff, 'A', 0xad, 9, 0x1f600, 'z'};
    static const subsetter_entry wanted[] = {{1, 0, 3}, {6, 4, 5}, {0, 5, 6}};
    for (size_t less = 0; less < 3; less++) {
        subsetter_entry found[4];
        subsetter_read_sizes sizes;
        size_t missing[3];
        memset(found, FILLED, sizeof found);
        memset(missing, FILLED, sizeof missing);
        uint32_t status = subsetter_read_text(FONT, text, 6, found, 3 - (less == 1), missing, 2 - (less == 2), &sizes);
        check(status == (less ? 8 : 0) && sizes.entries == 3 && sizes.missing == 2, "sizes", name);
        for (size_t i = 0; i < 3 && !less; i++)
            check(found[i].glyph == wanted[i].glyph && found[i].start == wanted[i].start && found[i].end == wanted[i].end, "an entry", name);
        check(less || (missing[0] == 3 && missing[1] == 5), "what is missing", name);
        check(*(uint8_t *)&found[less ? 0 : 3] == FILLED && *(uint8_t *)&missing[less ? 0 : 2] == FILLED, "what isn't written", name);
    }
}

/* The kinds of glyphs, also with a buffer that is one too small, and with each request for memory refused. */
static void try_kinds(void)
{
    static const char name[] = "kinds";
    static const uint16_t glyphs[] = {10, 11};
    uint32_t kinds[] = {0xA5A5A5A5, 0xA5A5A5A5, 0xA5A5A5A5}, status = 7;
    size_t size;
    uint8_t *font = file_of("made_colour.ttf", &size);
    check(subsetter_glyph_kinds(font, size, 0, glyphs, 2, kinds, 1) == 8 && kinds[0] == 0xA5A5A5A5, "no room", name);
    for (refused = 1; status == 7; refused++) {
        check(kinds[0] == 0xA5A5A5A5, "no memory", name);
        requests = 0;
        status = subsetter_glyph_kinds(font, size, 0, glyphs, 2, kinds, 2);
    }
    check(refused > 2 && status == 0 && kinds[2] == 0xA5A5A5A5, "status", name);
    refused = 0;
    check(kinds[0] == (SUBSETTER_KIND_SVG | SUBSETTER_KIND_OUTLINE) && kinds[1] == (SUBSETTER_KIND_SVG | SUBSETTER_KIND_EMPTY), "kinds", name);
    check(!subsetter_is_unseen(kinds[0]) && subsetter_is_unseen(kinds[1]) && !subsetter_is_unseen(SUBSETTER_KIND_EMPTY), "unseen", name);
    __real_free(font);
}

/* What the font shows of why, in buffers that are large enough or too small. */
static void try_reasons(const struct row *row)
{
    static const char name[] = "a reason", wanted[] = "glyph 12: the font's glyphs are 0 to 11";
    static const subsetter_coordinate at = {SUBSETTER_TAG('w', 'g', 'h', 't'), 650 << 16};
    static const subsetter_options unknown = {20, 0, 0, 8, 0};
    static const uint16_t glyph = 12;
    const size_t whole = sizeof wanted - 1;
    uint8_t why[128];
    size_t length;
    for (uint32_t call = 0; call < 8; call++)
        for (size_t room = 0; room <= sizeof why; room++) {
            memset(why, FILLED, sizeof why);
            uint32_t status = subsetter_explain(call, 2, FONT, &at, call % 2, &glyph, 1, NULL, why, room, &length);
            check(status == (call == 7 ? 10 : room < whole ? 8 : 0) && length == (call == 7 ? 0 : whole), "a status", name);
            check(memcmp(why, wanted, status == 0 ? whole : 0) == 0 && why[status == 0 ? whole : 0] == FILLED, "its text", name);
        }
    check(subsetter_explain(0, 2, FONT, NULL, 0, &glyph, 1, &unknown, why, sizeof why, &length) == 10 && length == 0, "an option", name);
}

/* ---- runs of text */

#define LEFT SUBSETTER_LEFT_TO_RIGHT, SUBSETTER_ORDER_VISUAL, 12000

static int is_line(const subsetter_pdf_objects *line, const char *operators)
{
    return is_same(line->bytes, line->size, operators, strlen(operators)) && is_empty(line->offsets, line->offset_count);
}

/* Glyphs by HarfBuzz's numbers, where each request for memory is refused in turn; from right to left where these fall. */
static void try_units(const uint8_t *bytes, size_t size)
{
    static const uint16_t words[] = {0xc1, 0xd83d, 0xde00, 'A'}, half[] = {0xc1, 0xd83d, 'A', 'A'};
    static const uint32_t numbers[] = {0xc1, 0x1f600, 'A'}, wrong[] = {0xc1, 0xd83d, 'A'};
    static const hb_glyph_position_t positions[] = {{1366, 0, 0, 0, 0}, {2048, 0, 0, 0, 0}, {1366, 0, 0, 0, 0}};
    const struct {
        const void *units;
        size_t count;
        uint32_t width, status, clusters[3];
    } texts[] = {
        {"\303\201\360\237\230\200A", 7, 8, 0, {0, 2, 6}}, {words, 4, 16, 0, {0, 1, 3}}, {numbers, 3, 32, 0, {0, 1, 2}}, {words, 4, 16, 0, {3, 1, 0}},
        {"\303\201\360\237\230\200A", 7, 8, 12, {0, 2, 5}}, {words, 4, 16, 12, {0, 2, 3}}, {numbers, 3, 32, 12, {0, 2, 1}},
        {"\303\201\360\237\230", 5, 8, 12, {0, 2, 2}}, {half, 4, 16, 12, {0, 1, 3}}, {wrong, 3, 32, 12, {0, 1, 2}}, {numbers, 3, 24, 10, {0, 1, 2}},
    };
    for (size_t request = 0; request < 40; request++)
        for (size_t i = 0; i < (request == 0 ? sizeof texts / sizeof *texts : 4); i++) {
            const uint32_t *at = texts[i].clusters;
            const hb_glyph_info_t infos[] = {{8, 0, at[0], 0, 0}, {6, 0, at[1], 0, 0}, {1, 0, at[2], 0, 0}};
            subsetter_shaped glyphs[3];
            subsetter_text text;
            subsetter_pdf_objects line;
            subsetter_hb_shaped(infos, positions, 3, glyphs);
            check(subsetter_new_text(bytes, size, 0, NO_PLACE, NULL, &text) == 0, "a text", "units");
            requests = 0;
            refused = request;
            uint32_t status = subsetter_show_shaped(&text, glyphs, 3, texts[i].units, texts[i].count, texts[i].width, at[0] > at[1], SUBSETTER_ORDER_VISUAL, 12000, &line);
            check(status == texts[i].status || (status == 7 && request > 0 && requests >= request), "status", "units");
            refused = 0;
            check(is_line(&line, status == 0 ? "[<000100020003>]TJ\n" : ""), "operators", "units");
            check(text.pair_count == (status == 0 ? 3 : 0) && (status != 0 || text.pairs[1].character == 0x1f600), "pairs", "units");
            subsetter_free_pdf_objects(&line);
            subsetter_free_text(&text);
        }
}

/* An accent over a letter is drawn by one own glyph, and no span is there. Own glyphs that aren't such are refused, and so is another number
 * of parts. */
static void try_own_glyphs(const uint8_t *bytes, size_t size)
{
    static const uint32_t accented[] = {'A', 0x301}, widths[] = {500, 667, 0};
    static const uint8_t map[] = {0, 0, 0, 3, 0, 4};
    static const subsetter_item marked[] = {{1, 0, 0, 2, 1366, 0, 0, 0}, {7, 1, 0, 0, 0, 0, -1024, 205}};
    static const struct {
        subsetter_own_glyph own[2];
        subsetter_part part;
    } wrong[] = {{{{65536, 1}, {0, 1}}, {1, 0, 0}},  {{{9, 2}, {9, 2}}, {1, 0, 0}},   {{{9, 1}, {9, 0}}, {1, 0, 0}},
                 {{{9, 1}, {9, 1}}, {65536, 0, 0}}, {{{9, 1}, {9, 1}}, {1, 32768, 0}}, {{{9, 1}, {9, 1}}, {1, 0, -32769}}};
    subsetter_text text;
    subsetter_pdf_objects line, sheet;
    subsetter_font font;
    check(subsetter_new_text(bytes, size, 0, NO_PLACE, NULL, &text) == 0 && text.most_parts > 1 && text.is_still == 0 && text.own_count == 0, "a text", "own glyphs");
    check(text.advance_count == text.metric_count && text.partable_count == text.metric_count && text.advances[1] == 1366 && text.partable[1] == 1, "glyphs", "own glyphs");
    check(subsetter_show_run(&text, marked, 2, accented, 2, LEFT, &line) == 0 && is_line(&line, "[<00010002>]TJ\n"), "operators", "own glyphs");
    subsetter_free_pdf_objects(&line);
    check(text.own_count == 1 && text.own[0].advance == 1366 && text.own[0].part_end == 2 && text.part_count == 2, "an own glyph", "own glyphs");
    check(memcmp(text.parts, (subsetter_part[]){{1, 0, 0}, {7, 342, 205}}, 24) == 0, "its parts", "own glyphs");
    check(text.pair_count == 2 && text.pairs[0].kind == 0 && text.pairs[0].glyph == text.metric_count && text.pairs[0].character == 'A', "a pair", "own glyphs");
    check(subsetter_make_text_font(&text, NULL, &font) == 0 && is_same(font.pdf.widths, 4 * font.pdf.width_count, widths, sizeof widths), "a font", "own glyphs");
    check(is_same(font.cid_to_gid_map, font.cid_to_gid_map_size, map, sizeof map), "its CIDToGIDMap", "own glyphs");
    check(text_sheet(&font, &sheet) == 0 && subsetter_make_objects(&font, 7, &line) == 0 && contains(&sheet, line.bytes, line.size)
        && contains(&sheet, " Tm\n[<0001>]TJ\nET\n", 18) && contains(&sheet, " Tm\nET\n", 7) && contains(&sheet, "[0 0 163 144]", 13)
        && contains(&sheet, "[0 0 14400 144]", 15) && is_empty(sheet.offsets, sheet.offset_count), "a sheet", "own glyphs");
    subsetter_free_pdf_objects(&line);
    subsetter_free_pdf_objects(&sheet);
    font.size--;
    check(subsetter_make_text_sheet(&font, NULL, 0, &line) == 10 && are_no_objects(&line), "another size", "a sheet");
    font.size++;
    subsetter_free_font(&font);
    subsetter_text other = text;
    for (size_t i = 0; i < sizeof wrong / sizeof *wrong; i++) {
        other.own = wrong[i].own;
        other.parts = &wrong[i].part;
        other.own_count = 2;
        other.part_count = 1;
        check(subsetter_show_run(&other, marked, 2, accented, 2, LEFT, &line) == 12 && are_no_objects(&line) && other.own == wrong[i].own, "no own glyphs", "own glyphs");
        check(subsetter_make_text_font(&other, NULL, &font) == 12 && is_no_whole(&font), "no own glyphs", "own glyphs");
    }
    other.most_parts = 65536;
    check(subsetter_show_run(&other, marked, 2, accented, 2, LEFT, &line) == 10 && subsetter_make_text_font(&other, NULL, &font) == 10, "too many parts", "own glyphs");
    subsetter_free_text(&text);
    check(text.own_count == 0 && text.part_count == 0 && text.most_parts == 0, "a text that was given back", "own glyphs");
}

/* Runs, units, and what is unknown. */
static void try_runs(void)
{
    size_t size;
    uint8_t *bytes = file_of("made.ttf", &size);
    try_own_glyphs(bytes, size);
    try_units(bytes, size);
    subsetter_text text;
    subsetter_pdf_objects line;
    subsetter_pdf_options options = defaults();
    options.direction = SUBSETTER_VERTICAL;
    check(subsetter_new_text(bytes, size, 0, NO_PLACE, &options, &text) == 0 && text.is_vertical == 1, "a vertical text", "runs");
    check(subsetter_show_run(&text, NULL, 0, NULL, 0, LEFT, &line) == 10 && are_no_objects(&line), "another direction", "runs");
    check(subsetter_show_run(&text, NULL, 0, NULL, 0, SUBSETTER_TOP_TO_BOTTOM, 2, 0, &line) == 10, "another order", "runs");
    check(subsetter_show_run(&text, NULL, 0, NULL, 0, SUBSETTER_TOP_TO_BOTTOM, 0, 0, &line) == 0 && is_line(&line, ""), "no glyphs", "runs");
    text.size--;
    check(subsetter_show_run(&text, NULL, 0, NULL, 0, SUBSETTER_TOP_TO_BOTTOM, 0, 0, &line) == 10, "another size", "runs");
    check(subsetter_new_text_by_words(bytes, size, 0, NO_PLACE, NULL, 0, &text) == 10 && text.units_per_em == 2048, "another size", "a text");
    text.size++;
    subsetter_free_text(&text);
    check(subsetter_show_run(&text, NULL, 0, NULL, 0, LEFT, &line) == 10 && text.size == sizeof text, "a text that was given back", "runs");
    check(subsetter_new_text(bytes, 4, 0, NO_PLACE, NULL, &text) != 0 && text.units_per_em == 0, "no font", "a text");
    __real_free(bytes);
}

int main(int count, char **words)
{
    static struct row row;
    static void (*const tries[])(const struct row *) = {
        try_utf8, try_words, try_options, try_texts, try_sheets, try_glyphs, try_read_text, try_reasons};
    size_t size, rows = 0;
    if (count < 3)
        return 2;
    folder = words[count - 2];
    packed = words[count - 1];
    char *whole = (char *)file_of("pdf.txt", &size), *text = whole;
    while ((text = read_row(&row, text)) != NULL) {
        answer(&row);
        refuse(&row);
        for (size_t i = 0; rows == 0 && i < sizeof tries / sizeof *tries; i++)
            tries[i](&row);
        __real_free(row.font);
        rows++;
    }
    __real_free(whole);
    try_limits();
    try_kinds();
    try_runs();
    try_lists_alone();
    printf("C: %zu rows for PDF, %zu checks, %zu failed\n", rows, checks, failures);
    return failures != 0 || rows < 17;
}
