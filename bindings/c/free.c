/* Gives memory back that the library has handed over. It took it by malloc, as the kit's C files do for it, so that free
 * takes it back. A run may give a text other lists: then those that it had are given back here. */
#include "subsetter.h"

#include <stdlib.h>

/* A list of no items has no memory of its own. */
static void give_back(const void *items, size_t count)
{
    if (count != 0)
        free((void *)items);
}

void subsetter_free(subsetter_made *made)
{
    static const subsetter_made nothing = {NULL, 0, NULL, 0, NULL, 0};
    if (made == NULL)
        return;
    give_back(made->font, made->font_size);
    give_back(made->cids, made->cid_count);
    give_back(made->widths, made->width_count);
    *made = nothing;
}

void subsetter_free_pdf_font(subsetter_pdf_font *made)
{
    static const subsetter_pdf_font nothing;
    if (made == NULL)
        return;
    give_back(made->program, made->program_size);
    give_back(made->cids, made->cid_count);
    give_back(made->codes, made->code_count);
    give_back(made->is_said, made->said_count);
    give_back(made->widths, made->width_count);
    give_back(made->columns, made->column_count);
    give_back(made->font_name, made->font_name_size);
    give_back(made->to_unicode, made->to_unicode_size);
    give_back(made->encoding, made->encoding_size);
    give_back(made->encoding_name, made->encoding_name_size);
    give_back(made->cid_set, made->cid_set_size);
    *made = nothing;
}

void subsetter_free_font(subsetter_font *made)
{
    if (made == NULL)
        return;
    subsetter_font nothing = {0};
    nothing.size = made->size;
    subsetter_free_pdf_font(&made->pdf);
    give_back(made->exact_widths, made->exact_width_count);
    give_back(made->unknown_axes, made->unknown_axis_count);
    give_back(made->glyphs, made->glyph_count);
    give_back(made->text, made->text_count);
    give_back(made->ends, made->end_count);
    give_back(made->cid_to_gid_map, made->cid_to_gid_map_size);
    *made = nothing;
}

void subsetter_free_pdf_parts(subsetter_pdf_parts *made)
{
    static const subsetter_pdf_parts nothing = {NULL, 0};
    if (made == NULL)
        return;
    for (size_t i = 0; i < made->part_count; i++) {
        give_back(made->parts[i].entries, made->parts[i].entries_size);
        give_back(made->parts[i].strings, made->parts[i].string_count);
    }
    give_back(made->parts, made->part_count);
    *made = nothing;
}

void subsetter_free_pdf_objects(subsetter_pdf_objects *made)
{
    static const subsetter_pdf_objects nothing = {NULL, 0, NULL, 0};
    if (made == NULL)
        return;
    give_back(made->bytes, made->size);
    give_back(made->offsets, made->offset_count);
    *made = nothing;
}

void subsetter_free_text(subsetter_text *text)
{
    if (text == NULL)
        return;
    subsetter_text nothing = {0};
    nothing.size = text->size;
    give_back(text->coordinates, text->coordinate_count);
    give_back(text->metrics, text->metric_count);
    give_back(text->inked, text->inked_count);
    give_back(text->pairs, text->pair_count);
    give_back(text->advances, text->advance_count);
    give_back(text->partable, text->partable_count);
    give_back(text->own, text->own_count);
    give_back(text->parts, text->part_count);
    *text = nothing;
}

/* Lists that a text has no more. */
struct left {
    const subsetter_pair *pairs;
    size_t pair_count;
    const subsetter_own_glyph *own;
    size_t own_count;
    const subsetter_part *parts;
    size_t part_count;
};

static void give_left_back(const struct left *left)
{
    give_back(left->pairs, left->pair_count);
    give_back(left->own, left->own_count);
    give_back(left->parts, left->part_count);
}

/* The proved calls (crates/subsetter_c/src/documents/runs.rt). Of the three lists of units the one of the width is the text. */
uint32_t text_show_run(subsetter_text *text, const subsetter_item *items, size_t item_count,
                       const uint32_t *characters, size_t character_count, uint32_t direction, uint32_t order, uint32_t size,
                       subsetter_pdf_objects *made, struct left *left);
uint32_t text_show_shaped(subsetter_text *text, const subsetter_shaped *glyphs, size_t glyph_count,
                          const uint8_t *utf8, size_t utf8_count, const uint16_t *utf16, size_t utf16_count,
                          const uint32_t *utf32, size_t utf32_count, uint32_t unit_width,
                          uint32_t direction, uint32_t order, uint32_t size,
                          subsetter_pdf_objects *made, struct left *left);

uint32_t subsetter_show_run(subsetter_text *text, const subsetter_item *items, size_t item_count,
                            const uint32_t *characters, size_t character_count,
                            uint32_t direction, uint32_t order, uint32_t size,
                            subsetter_pdf_objects *made)
{
    struct left left = {NULL, 0, NULL, 0, NULL, 0};
    uint32_t status = text_show_run(text, items, item_count, characters, character_count, direction, order, size, made, &left);
    give_left_back(&left);
    return status;
}

uint32_t subsetter_show_shaped(subsetter_text *text, const subsetter_shaped *glyphs, size_t glyph_count,
                               const void *units, size_t unit_count, uint32_t unit_width,
                               uint32_t direction, uint32_t order, uint32_t size,
                               subsetter_pdf_objects *made)
{
    struct left left = {NULL, 0, NULL, 0, NULL, 0};
    size_t bytes = unit_width == 8 ? unit_count : 0, words = unit_width == 16 ? unit_count : 0;
    size_t numbers = unit_width == 32 ? unit_count : 0;
    uint32_t status = text_show_shaped(text, glyphs, glyph_count, bytes ? units : NULL, bytes, words ? units : NULL, words,
                                       numbers ? units : NULL, numbers, unit_width, direction, order, size, made, &left);
    give_left_back(&left);
    return status;
}
