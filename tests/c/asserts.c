/* What the header promises to programs that were compiled earlier, and to other languages: the value of each constant, the place and the
 * type of each field, and the size of each struct. It is only compiled. */
#include "subsetter.h"

#define IS(IT, ...) _Generic((IT), __VA_ARGS__: 1, default: 0)
#define NUMBER(NAME, VALUE) _Static_assert((uint32_t)(NAME) == (VALUE), #NAME);
#define FIELD(STRUCT, NAME, PLACE, ...) \
    _Static_assert(offsetof(STRUCT, NAME) == (PLACE) && IS(&((STRUCT *)0)->NAME, __VA_ARGS__), #STRUCT ": " #NAME);
#define SIZE(STRUCT, BYTES) _Static_assert(sizeof(STRUCT) == (BYTES), #STRUCT);

/* ---- constants */

NUMBER(SUBSETTER_DONE, 0) NUMBER(SUBSETTER_UNKNOWN_KIND, 1) NUMBER(SUBSETTER_MALFORMED_FONT, 2) NUMBER(SUBSETTER_UNIMPLEMENTED, 3)
NUMBER(SUBSETTER_SUBSET_ERROR, 4) NUMBER(SUBSETTER_OVERFLOW_ERROR, 5) NUMBER(SUBSETTER_CFF_ERROR, 6) NUMBER(SUBSETTER_OUT_OF_MEMORY, 7)
NUMBER(SUBSETTER_BUFFER_TOO_SMALL, 8) NUMBER(SUBSETTER_NO_DEPTH, 9) NUMBER(SUBSETTER_UNKNOWN_OPTION, 10) NUMBER(SUBSETTER_NOT_PERMITTED, 11)
NUMBER(SUBSETTER_INVALID_TEXT, 12) NUMBER(SUBSETTER_NO_CMAP, 13) NUMBER(SUBSETTER_BITMAPS_ALONE, 14) NUMBER(SUBSETTER_OVERFULL, 15) NUMBER(SUBSETTER_INVALID_NUMBERS, 16) NUMBER(SUBSETTER_SMALL, 7)
NUMBER(SUBSETTER_DROP_HINTING, 1) NUMBER(SUBSETTER_DROP_NAMES, 2) NUMBER(SUBSETTER_DROP_GLYPH_NAMES, 4)
NUMBER(SUBSETTER_KIND_COLR_1, 1) NUMBER(SUBSETTER_KIND_COLR_0, 2) NUMBER(SUBSETTER_KIND_SVG, 4) NUMBER(SUBSETTER_KIND_CBDT_17, 8)
NUMBER(SUBSETTER_KIND_CBDT_18, 16) NUMBER(SUBSETTER_KIND_CBDT_19, 32) NUMBER(SUBSETTER_KIND_CBDT_OTHER, 64) NUMBER(SUBSETTER_KIND_SBIX_PNG, 128)
NUMBER(SUBSETTER_KIND_SBIX_JPG, 256) NUMBER(SUBSETTER_KIND_SBIX_TIFF, 512) NUMBER(SUBSETTER_KIND_SBIX_PDF, 1024)
NUMBER(SUBSETTER_KIND_SBIX_MASK, 2048) NUMBER(SUBSETTER_KIND_SBIX_DUPE, 4096) NUMBER(SUBSETTER_KIND_SBIX_OTHER, 8192)
NUMBER(SUBSETTER_KIND_EBDT, 16384) NUMBER(SUBSETTER_KIND_OUTLINE, 32768) NUMBER(SUBSETTER_KIND_EMPTY, 65536)
NUMBER(SUBSETTER_PROGRAM_SMALLEST, 0) NUMBER(SUBSETTER_PROGRAM_OPENTYPE, 1)
NUMBER(SUBSETTER_CODES_CONSECUTIVE, 0) NUMBER(SUBSETTER_CODES_SOURCE, 1) NUMBER(SUBSETTER_CODES_EACH_TEXT, 2)
NUMBER(SUBSETTER_HORIZONTAL, 0) NUMBER(SUBSETTER_VERTICAL, 1) NUMBER(SUBSETTER_BOUNDS_FONT, 0) NUMBER(SUBSETTER_BOUNDS_KEPT, 1)
NUMBER(SUBSETTER_RIGHTS_FROM_FONT, 0) NUMBER(SUBSETTER_RIGHTS_AS_SAID, 0) NUMBER(SUBSETTER_RIGHTS_HELD, 1)
NUMBER(SUBSETTER_KIND_TRUETYPE, 0) NUMBER(SUBSETTER_KIND_BARE_CFF, 1) NUMBER(SUBSETTER_KIND_OPENTYPE, 2)
NUMBER(SUBSETTER_USAGE_UNSAID, 0) NUMBER(SUBSETTER_USAGE_INSTALLABLE, 1) NUMBER(SUBSETTER_USAGE_EDITABLE, 2)
NUMBER(SUBSETTER_USAGE_PREVIEW_AND_PRINT, 3) NUMBER(SUBSETTER_USAGE_RESTRICTED, 4)
NUMBER(SUBSETTER_LAYOUT_LINE, 0) NUMBER(SUBSETTER_LAYOUT_GRID, 1)
NUMBER(SUBSETTER_ROLE_FONT, 0) NUMBER(SUBSETTER_ROLE_CID_FONT, 1) NUMBER(SUBSETTER_ROLE_DESCRIPTOR, 2) NUMBER(SUBSETTER_ROLE_PROGRAM, 3)
NUMBER(SUBSETTER_ROLE_TO_UNICODE, 4) NUMBER(SUBSETTER_ROLE_CID_SET, 5) NUMBER(SUBSETTER_ROLE_ENCODING, 6)
NUMBER(SUBSETTER_ROLE_CID_TO_GID_MAP, 7)
NUMBER(SUBSETTER_CALL_SUBSET, 0) NUMBER(SUBSETTER_CALL_SUBSET_AT, 1) NUMBER(SUBSETTER_CALL_EMBED, 2) NUMBER(SUBSETTER_CALL_EMBED_AT, 3)
NUMBER(SUBSETTER_CALL_PDF_FONT, 4) NUMBER(SUBSETTER_CALL_GLYPHS_OF, 5) NUMBER(SUBSETTER_CALL_ADVANCES, 6)
NUMBER(SUBSETTER_LEFT_TO_RIGHT, 0) NUMBER(SUBSETTER_RIGHT_TO_LEFT, 1) NUMBER(SUBSETTER_TOP_TO_BOTTOM, 2)
NUMBER(SUBSETTER_ORDER_VISUAL, 0) NUMBER(SUBSETTER_ORDER_LOGICAL, 1)

/* The preprocessor knows the version; numbers of characters have each at its place, with its eight bits alone, in any expression. */
#if SUBSETTER_VERSION >> 24 != SUBSETTER_VERSION_MAJOR || (SUBSETTER_VERSION >> 16 & 255) != SUBSETTER_VERSION_MINOR \
    || (SUBSETTER_VERSION >> 8 & 255) != SUBSETTER_VERSION_PATCH || (SUBSETTER_VERSION & 255) != SUBSETTER_VERSION_N
#error "the version in #if"
#endif
_Static_assert(IS(SUBSETTER_VERSION, uint32_t) && SUBSETTER_VERSION / 2 * 2 + SUBSETTER_VERSION % 2 == SUBSETTER_VERSION, "the version");
_Static_assert(IS(SUBSETTER_TAG('w', 'g', 'h', 't'), uint32_t) && 2 * SUBSETTER_TAG(1, 2, 3, 1 ? 4 : 0) == 0x02040608, "a tag");
_Static_assert(SUBSETTER_TAG('\377', 0, '\200', 1) == 0xff008001 && SUBSETTER_TAG(1, '\200', 0, '\377') == 0x018000ff, "high bytes of a tag");
_Static_assert(IS(SUBSETTER_LETTERS('A', 'B', 'C'), uint32_t) && 2 * SUBSETTER_LETTERS(1, 2, 1 ? 3 : 0) == 0x020406, "letters");
_Static_assert(SUBSETTER_LETTERS('\377', 0, '\200') == 0xff0080 && SUBSETTER_LETTERS(1, '\200', '\377') == 0x0180ff, "high bytes of letters");

/* ---- structs */

enum { WORD = sizeof(size_t) };
_Static_assert(sizeof(void *) == WORD, "pointers are as long as sizes");

#define OPTIONS(STRUCT)                                                                                           \
    FIELD(STRUCT, size, 0, uint32_t *) FIELD(STRUCT, tokens, 4, uint32_t *) FIELD(STRUCT, depth, 8, uint32_t *)     \
    FIELD(STRUCT, drop, 12, uint32_t *) FIELD(STRUCT, bytes, 16, uint32_t *)
OPTIONS(subsetter_options) SIZE(subsetter_options, 20)
OPTIONS(subsetter_pdf_options) SIZE(subsetter_pdf_options, 56)
#define PDF_OPTION(NAME, AT) FIELD(subsetter_pdf_options, NAME, 4 * (AT), uint32_t *)
PDF_OPTION(program, 5) PDF_OPTION(codes, 6) PDF_OPTION(direction, 7) PDF_OPTION(bounds, 8) PDF_OPTION(cid_set, 9) PDF_OPTION(rights, 10)
FIELD(subsetter_pdf_options, tag, 44, uint32_t (*)[2]) FIELD(subsetter_pdf_options, own_glyphs, 52, uint32_t *)

FIELD(subsetter_coordinate, tag, 0, uint32_t *) FIELD(subsetter_coordinate, value, 4, int32_t *) SIZE(subsetter_coordinate, 8)
FIELD(subsetter_column, advance, 0, int32_t *) FIELD(subsetter_column, x, 4, int32_t *) FIELD(subsetter_column, y, 8, int32_t *)
SIZE(subsetter_column, 12)
FIELD(subsetter_sizes, font, 0, size_t *) FIELD(subsetter_sizes, cids, WORD, size_t *) FIELD(subsetter_sizes, widths, 2 * WORD, size_t *)
SIZE(subsetter_sizes, 3 * WORD)

/* A list: a pointer to its items, and their count after it. */
#define LIST(STRUCT, AT, NAME, ITEM, COUNT) FIELD(STRUCT, NAME, 2 * (AT) * WORD, const ITEM **) FIELD(STRUCT, COUNT, (2 * (AT) + 1) * WORD, size_t *)
LIST(subsetter_made, 0, font, uint8_t, font_size) LIST(subsetter_made, 1, cids, uint16_t, cid_count)
LIST(subsetter_made, 2, widths, uint32_t, width_count) SIZE(subsetter_made, 6 * WORD)
LIST(subsetter_pdf_objects, 0, bytes, uint8_t, size) LIST(subsetter_pdf_objects, 1, offsets, size_t, offset_count)
SIZE(subsetter_pdf_objects, 4 * WORD)
#define PDF_LIST(...) LIST(subsetter_pdf_font, __VA_ARGS__)
PDF_LIST(0, program, uint8_t, program_size) PDF_LIST(1, cids, uint16_t, cid_count) PDF_LIST(2, codes, uint16_t, code_count)
PDF_LIST(3, is_said, uint8_t, said_count) PDF_LIST(4, widths, uint32_t, width_count) PDF_LIST(5, columns, subsetter_column, column_count)
PDF_LIST(6, font_name, uint8_t, font_name_size) PDF_LIST(7, to_unicode, uint8_t, to_unicode_size) PDF_LIST(8, encoding, uint8_t, encoding_size)
PDF_LIST(9, encoding_name, uint8_t, encoding_name_size) PDF_LIST(10, cid_set, uint8_t, cid_set_size)
#define PDF_NUMBER(AT, NAME, ...) FIELD(subsetter_pdf_font, NAME, 22 * WORD + 4 * (AT), __VA_ARGS__)
PDF_NUMBER(0, kind, uint32_t *) PDF_NUMBER(1, is_vertical, uint32_t *) PDF_NUMBER(2, default_width, uint32_t *)
PDF_NUMBER(3, default_column, int32_t (*)[2]) PDF_NUMBER(5, flags, uint32_t *) PDF_NUMBER(6, bounds, int32_t (*)[4])
PDF_NUMBER(10, italic_angle, int32_t *) PDF_NUMBER(11, ascent, int32_t *) PDF_NUMBER(12, descent, int32_t *) PDF_NUMBER(13, cap_height, int32_t *)
PDF_NUMBER(14, has_x_height, uint32_t *) PDF_NUMBER(15, x_height, int32_t *) PDF_NUMBER(16, stem_v, uint32_t *)
PDF_NUMBER(17, font_weight, uint32_t *) PDF_NUMBER(18, usage, uint32_t *) PDF_NUMBER(19, may_subset, uint32_t *)
PDF_NUMBER(20, may_embed_outlines, uint32_t *)
/* (after 21 numbers there may be room) */
SIZE(subsetter_pdf_font, (22 * WORD + 4 * 21 + WORD - 1) / WORD * WORD)

/* (what is after these in later versions isn't promised) */
enum { BEHIND = 8 + sizeof(subsetter_pdf_font) };
FIELD(subsetter_font, size, 0, uint32_t *) FIELD(subsetter_font, units_per_em, 4, uint32_t *) FIELD(subsetter_font, pdf, 8, subsetter_pdf_font *)
#define FONT_LIST(AT, NAME, ITEM, COUNT)                                                                          \
    FIELD(subsetter_font, NAME, BEHIND + 2 * (AT) * WORD, const ITEM **) FIELD(subsetter_font, COUNT, BEHIND + (2 * (AT) + 1) * WORD, size_t *)
FONT_LIST(0, exact_widths, uint16_t, exact_width_count) FONT_LIST(1, unknown_axes, uint32_t, unknown_axis_count)
FONT_LIST(2, glyphs, uint16_t, glyph_count) FONT_LIST(3, text, uint32_t, text_count) FONT_LIST(4, ends, size_t, end_count)
FONT_LIST(5, cid_to_gid_map, uint8_t, cid_to_gid_map_size)
SIZE(subsetter_font, BEHIND + 12 * WORD) _Static_assert(WORD != 8 || sizeof(subsetter_font) == 368, "the size that the proved library knows");
FIELD(subsetter_pdf_range, start, 0, size_t *) FIELD(subsetter_pdf_range, end, WORD, size_t *) SIZE(subsetter_pdf_range, 2 * WORD)
FIELD(subsetter_pdf_part, role, 0, uint32_t *) FIELD(subsetter_pdf_part, number, 4, uint32_t *) FIELD(subsetter_pdf_part, entries, 8, const uint8_t **)
FIELD(subsetter_pdf_part, entries_size, 8 + WORD, size_t *) FIELD(subsetter_pdf_part, strings, 8 + 2 * WORD, const subsetter_pdf_range **)
FIELD(subsetter_pdf_part, string_count, 8 + 3 * WORD, size_t *) FIELD(subsetter_pdf_part, is_stream, 8 + 4 * WORD, uint32_t *)
FIELD(subsetter_pdf_part, stream, 8 + 5 * WORD, const uint8_t **) FIELD(subsetter_pdf_part, stream_size, 8 + 6 * WORD, size_t *) SIZE(subsetter_pdf_part, 8 + 7 * WORD)
LIST(subsetter_pdf_parts, 0, parts, subsetter_pdf_part, part_count) SIZE(subsetter_pdf_parts, 2 * WORD)

FIELD(subsetter_line, operators, 0, const uint8_t **) FIELD(subsetter_line, size, WORD, size_t *)
FIELD(subsetter_line, advance, 2 * WORD, uint32_t *) SIZE(subsetter_line, 3 * WORD)

#define TEXT_LIST(AT, NAME, ITEM, COUNT)                                                                          \
    FIELD(subsetter_text, NAME, 8 + 2 * (AT) * WORD, const ITEM **) FIELD(subsetter_text, COUNT, 8 + (2 * (AT) + 1) * WORD, size_t *)
FIELD(subsetter_text, size, 0, uint32_t *) FIELD(subsetter_text, units_per_em, 4, uint32_t *)
TEXT_LIST(0, font, uint8_t, font_size) TEXT_LIST(1, coordinates, subsetter_coordinate, coordinate_count)
TEXT_LIST(2, metrics, subsetter_metrics, metric_count) TEXT_LIST(3, inked, uint8_t, inked_count) TEXT_LIST(4, pairs, subsetter_pair, pair_count)
FIELD(subsetter_text, index, 8 + 10 * WORD, uint32_t *) FIELD(subsetter_text, is_vertical, 12 + 10 * WORD, uint32_t *)
#define LATER_LIST(AT, NAME, ITEM, COUNT)                                                                         \
    FIELD(subsetter_text, NAME, 16 + 2 * (AT) * WORD, const ITEM **) FIELD(subsetter_text, COUNT, 16 + (2 * (AT) + 1) * WORD, size_t *)
LATER_LIST(5, advances, uint16_t, advance_count) LATER_LIST(6, partable, uint8_t, partable_count)
LATER_LIST(7, own, subsetter_own_glyph, own_count) LATER_LIST(8, parts, subsetter_part, part_count)
FIELD(subsetter_text, most_parts, 16 + 18 * WORD, uint32_t *) FIELD(subsetter_text, is_still, 20 + 18 * WORD, uint32_t *) SIZE(subsetter_text, 24 + 18 * WORD)
_Static_assert(WORD != 8 || sizeof(subsetter_text) == 168, "the size that the proved library knows");
#define NUMBERS(STRUCT, AT, NAME, ...) FIELD(STRUCT, NAME, 4 * (AT), __VA_ARGS__)
#define PLACES(STRUCT, AT)                                                                                        \
    NUMBERS(STRUCT, AT, x_advance, int32_t *) NUMBERS(STRUCT, AT + 1, y_advance, int32_t *)                         \
    NUMBERS(STRUCT, AT + 2, x_offset, int32_t *) NUMBERS(STRUCT, AT + 3, y_offset, int32_t *) SIZE(STRUCT, 4 * (AT + 4))
NUMBERS(subsetter_item, 0, glyph, uint32_t *) NUMBERS(subsetter_item, 1, continues, uint32_t *) NUMBERS(subsetter_item, 2, start, uint32_t *)
NUMBERS(subsetter_item, 3, end, uint32_t *) PLACES(subsetter_item, 4)
NUMBERS(subsetter_shaped, 0, glyph, uint32_t *) NUMBERS(subsetter_shaped, 1, cluster, uint32_t *) PLACES(subsetter_shaped, 2)
NUMBERS(subsetter_pair, 0, kind, uint32_t *) NUMBERS(subsetter_pair, 1, glyph, uint32_t *) NUMBERS(subsetter_pair, 2, character, uint32_t *)
SIZE(subsetter_pair, 12)
NUMBERS(subsetter_own_glyph, 0, advance, uint32_t *) NUMBERS(subsetter_own_glyph, 1, part_end, uint32_t *) SIZE(subsetter_own_glyph, 8)
NUMBERS(subsetter_part, 0, glyph, uint32_t *) NUMBERS(subsetter_part, 1, x, int32_t *) NUMBERS(subsetter_part, 2, y, int32_t *) SIZE(subsetter_part, 12)
NUMBERS(subsetter_metrics, 0, displacement, int32_t *) NUMBERS(subsetter_metrics, 1, position, int32_t *) SIZE(subsetter_metrics, 8)
