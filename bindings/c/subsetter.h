/* SPDX-License-Identifier: MIT OR Apache-2.0 (the files LICENSE and NOTICE of the repository and of each package)
 *
 * subsetter: fonts cut down to some of their glyphs, for embedding in PDF.
 *
 * Every call is a function of its arguments. It keeps nothing between calls and shares nothing, so threads may call at
 * the same time, each with buffers of its own; the font and the glyph numbers they may share, as long as nobody writes
 * them. It may not be called from a signal handler, nor from the forked child of a process with threads. It takes memory
 * from malloc and gives all of it back before it returns, but for what the `make` calls hand over (malloc, realloc and
 * free are to come from one allocator); the caller owns all that it passes, and the library keeps none of it.
 *
 * A list is a pointer and a count of items, and is aligned as its items are. For a count of 0 the pointer may be null. Of an
 * empty list that the library hands over the pointer says nothing: it may be null or not, and is neither read nor freed. A
 * buffer that is written must not overlap anything else that is passed. A size (`length`, `sizes`) is written by each
 * call and must not be null.
 *
 * The font is the whole file: OpenType or a collection, as bytes. `index` is the face of a collection, from 0; in a file
 * with one font it isn't looked at. `glyphs` are glyph numbers of the font, in any order, with repeats if need be. The new
 * font has glyph 0, then the given glyphs in order, each once, and then each further glyph that these need as components.
 * A glyph's CID is its number there.
 *
 * A whole PDF of one line, and the objects of the font for a PDF of your own, whose pages name object 5:
 *
 *     subsetter_font font;
 *     subsetter_pdf_objects sheet, objects;
 *     const char *text = "Hello";
 *     status = subsetter_make_pdf_font_of_utf8(data, size, 0, NULL, 0, text, strlen(text), NULL, &font);
 *     status = subsetter_make_sheet(&font, SUBSETTER_LAYOUT_LINE, &sheet);
 *     status = subsetter_make_objects(&font, 5, &objects);
 *     ..
 *     subsetter_free_pdf_objects(&objects);
 *     subsetter_free_pdf_objects(&sheet);
 *     subsetter_free_font(&font);
 *
 * For other languages: the library exports the functions that are declared here without `static inline`. The inline ones
 * need this header; each is next to the exported call that does its work.
 */
#ifndef SUBSETTER_H
#define SUBSETTER_H

#include <stddef.h>
#include <stdint.h>

#ifdef __cplusplus
extern "C" {
#endif

/* The version of this header. The fourth number is 0. */
#define SUBSETTER_VERSION_MAJOR 1
#define SUBSETTER_VERSION_MINOR 0
#define SUBSETTER_VERSION_PATCH 0
#define SUBSETTER_VERSION_N 0
#define SUBSETTER_VERSION_TEXT "1.0.0"
/* The four in one number, eight bits each; `#if` may ask for it. */
#define SUBSETTER_VERSION                                                                    \
    (SUBSETTER_VERSION_MAJOR * 0x1000000u + SUBSETTER_VERSION_MINOR * 0x10000u               \
     + SUBSETTER_VERSION_PATCH * 0x100u + SUBSETTER_VERSION_N)

/* What a call returns. (The library that Cargo builds, bindings/capi, returns 4294967295, of unknown status, where its own code
 * fails; no font is known to cause that.) */
enum {
    SUBSETTER_DONE = 0,
    /* No OpenType font, or one without outlines. */
    SUBSETTER_UNKNOWN_KIND = 1,
    /* A table is missing or cut, or there is no such glyph or face. */
    SUBSETTER_MALFORMED_FONT = 2,
    /* The outlines are CFF2, which the calls at coordinates take, or a given glyph is an accented character that `endchar` puts
     * together. */
    SUBSETTER_UNIMPLEMENTED = 3,
    /* A kept string lies outside its table, or the new `name` would be too large. */
    SUBSETTER_SUBSET_ERROR = 4,
    /* The glyphs leave no number for glyph 0, or a limit is passed (of glyphs, names, font dicts or sizes); or a real
     * number in `CFF ` has more than 64 characters when it is written in full; or `hhea` counts no metrics. */
    SUBSETTER_OVERFLOW_ERROR = 5,
    /* `CFF ` has another version than 1, or a charstring can't be run. */
    SUBSETTER_CFF_ERROR = 6,
    /* malloc gave nothing. */
    SUBSETTER_OUT_OF_MEMORY = 7,
    /* A buffer is too small. Nothing is written but the sizes, which are exact. */
    SUBSETTER_BUFFER_TOO_SMALL = 8,
    /* The limit of the depth is 0. */
    SUBSETTER_NO_DEPTH = 9,
    /* Of options `size` is none that this library knows (SUBSETTER_DEFAULT_OPTIONS and the like set it), `depth` is above 255, `drop`
     * has another bit, a choice is none of its values, or a tag isn't six capitals. Or a direction, an order, a layout or the width of
     * a unit is none of its values, or not for this text; or a font's or a text's `size` isn't that of the struct, or a font or a
     * text isn't there, as after a `make` call that failed, or after `subsetter_free_text`. */
    SUBSETTER_UNKNOWN_OPTION = 10,
    /* The font's maker doesn't permit that it is embedded (`fsType` of the table `OS/2`), and `rights` isn't
     * SUBSETTER_RIGHTS_HELD; of the calls for PDF alone. */
    SUBSETTER_NOT_PERMITTED = 11,
    /* A text has a number that is no character, an end that isn't in its order, or more than 256 UTF-16 units, or isn't UTF-8; or
     * glyphs are no run of the font and of their text; of the calls for PDF alone. */
    SUBSETTER_INVALID_TEXT = 12,
    /* The font has no table by which characters have glyphs; of the calls that look them up alone. */
    SUBSETTER_NO_CMAP = 13,
    /* The face has no outlines (`glyf`, `CFF `, `CFF2`); of the calls that make a font for PDF alone. Others answer 1. */
    SUBSETTER_BITMAPS_ALONE = 14,
    /* The font of a text would have more than 65,535 codes, code 0 among them, or glyphs: the run is for another text. */
    SUBSETTER_OVERFULL = 15,
    /* The numbers of objects are too few or too many, 0, or not distinct; of the calls for PDF alone. */
    SUBSETTER_INVALID_NUMBERS = 16
};

/* What a status says, in English. */
static inline const char *subsetter_status_text(uint32_t status)
{
    static const char *const texts[] = {
        "all done", "unknown font kind", "malformed font", "unsupported feature in font", "subsetting of font failed",
        "overflow occurred", "processing CFF table failed", "out of memory", "a buffer is too small",
        "the limit of the depth is 0", "wrong option, size or text", "embedding not permitted", "invalid text"
    };
    return status < sizeof texts / sizeof *texts ? texts[status]
           : status == 13 ? "no usable cmap in font" : status == 14 ? "no outlines in font" : status == 15 ? "too many codes" : status == 16 ? "invalid numbers" : "unknown status";
}

/* This text from the library, in ASCII, without a zero at the end: print it by "%.*s", with (int)length in front.
 *   0: `out` begins with the text, and `*length` is its size in bytes.
 *   8: `out` is too small and as it was; `*length` is the exact size (at most 27).
 */
uint32_t subsetter_error_text(uint32_t status, uint8_t *out, size_t out_size, size_t *length);

/* The version of the library, as SUBSETTER_VERSION. */
uint32_t subsetter_version(void);

/* ---- choices */

/* What is left out (`drop`, added up). Without any of them all is kept. */
enum {
    /* The instructions of outlines in `glyf`, and the tables `cvt `, `fpgm` and `prep`. The hints of charstrings (CFF)
     * stay. Not for fonts whose instructions draw, as some old CJK fonts do: their glyphs come out misshapen. */
    SUBSETTER_DROP_HINTING = 1,
    /* The table `name`. */
    SUBSETTER_DROP_NAMES = 2,
    /* The names of glyphs: `post` has version 3.0, with its first 32 bytes alone. */
    SUBSETTER_DROP_GLYPH_NAMES = 4,
    /* All of these: the smallest font. */
    SUBSETTER_SMALL = 7
};

/* All choices of a call. Later versions put further fields after these; in each of them 0 is the default. A field past
 * `size` has its default, and a `size` that the library doesn't know is refused (status 10), so that a program and a
 * library of two versions never misread each other. A null pointer in its place means all defaults.
 *
 *     subsetter_options options = SUBSETTER_DEFAULT_OPTIONS;
 *     options.drop = SUBSETTER_DROP_HINTING | SUBSETTER_DROP_NAMES;
 */
typedef struct subsetter_options {
    /* sizeof (subsetter_options). */
    uint32_t size;
    /* The most numbers and operators that the charstring of a glyph may run for (CFF outlines); 0 for 1000000. */
    uint32_t tokens;
    /* How deep it may call, where the glyph's own charstring is at depth 1; 0 for 64. At most 255, else status 10. */
    uint32_t depth;
    /* The sum of some of SUBSETTER_DROP_HINTING, .._NAMES and .._GLYPH_NAMES. Another bit is status 10. */
    uint32_t drop;
    /* The most bytes that the new font may have; 0 for no bound. Where it would have more: status 5, reported before it is
     * made. */
    uint32_t bytes;
} subsetter_options;

#define SUBSETTER_DEFAULT_OPTIONS { sizeof(subsetter_options), 0, 0, 0, 0 }

/* The exported calls take the options as the list of their 32-bit words (`options`, `option_count`): the size in bytes of
 * all of them, which is 4 * option_count, then tokens, depth, drop and bytes as far as they are given. No words: all
 * defaults. These two make that list of a struct. */
static inline const uint32_t *subsetter_option_words(const subsetter_options *options)
{
    return options == NULL ? NULL : &options->size;
}

static inline size_t subsetter_option_count(const subsetter_options *options)
{
    /* (a size of no whole words is refused: its first word isn't 4 times the count) */
    return options == NULL ? 0 : options->size < 4 ? 1 : options->size / 4;
}

/* The tag of an axis: SUBSETTER_TAG('w', 'g', 'h', 't'). */
#define SUBSETTER_TAG(a, b, c, d)                                                              \
    (((uint32_t)(uint8_t)(a) << 24) | ((uint32_t)(uint8_t)(b) << 16) | ((uint32_t)(uint8_t)(c) << 8) | (uint32_t)(uint8_t)(d))

/* A value on an axis. */
typedef struct subsetter_coordinate {
    /* The tag of the axis: its four bytes, the first in the highest bits. */
    uint32_t tag;
    /* The value in 65536ths of what the axis counts: weight 650 is 650 * 65536. */
    int32_t value;
} subsetter_coordinate;

/* ---- why a call was refused */

/* The calls, for `subsetter_explain_by_words`. */
enum {
    SUBSETTER_CALL_SUBSET = 0,
    SUBSETTER_CALL_SUBSET_AT = 1,
    SUBSETTER_CALL_EMBED = 2,
    SUBSETTER_CALL_EMBED_AT = 3,
    SUBSETTER_CALL_PDF_FONT = 4,    /* also subsetter_make_text_font, with the glyphs of the runs */
    SUBSETTER_CALL_GLYPHS_OF = 5,   /* also subsetter_glyph_kinds, and status 13 of subsetter_make_pdf_font_of_utf8,
                                       or for characters that are missing */
    SUBSETTER_CALL_ADVANCES = 6     /* also subsetter_new_text, without glyphs */
};

/* Why a call was refused with a status, as the font shows it: the table or the glyph, in words ("glyph 60000: the font's glyphs are 0
 * to 6252"; "OS/2: fsType 0x0002 forbids embedding (bit 1)"). It is in UTF-8, without a zero at the end, of at most 127 bytes, for people, and
 * may change. `call` is one of SUBSETTER_CALL_.. (the calls in buffers and in memory of the library are one), and the font, the
 * coordinates, the glyphs and the options are those of that call; without coordinates there are none, and of `subsetter_pdf_options`
 * it takes tokens, depth and bytes. A charstring is run within the limits, once at most, and none after the first that can't be. It gets no
 * text, and says nothing of it.
 *
 *     status = subsetter_make_subset(data, size, 0, glyphs, count, NULL, &made);
 *     if (status != SUBSETTER_DONE) {
 *         uint8_t why[127];
 *         size_t length;
 *         subsetter_explain(SUBSETTER_CALL_SUBSET, status, data, size, 0, NULL, 0, glyphs, count, NULL, why, sizeof why, &length);
 *         fprintf(stderr, "%s%s%.*s\n", subsetter_status_text(status), length == 0 ? "" : ": ", (int)length, (const char *)why);
 *     }
 *
 *   0: `out` begins with the text, and `*length` is its size in bytes: 0 where the font doesn't show why.
 *   8: `out` is too small and as it was; `*length` is the exact size.
 *   7, 10 (another call, or an option): `out` is as it was, and `*length` is 0.
 */
uint32_t subsetter_explain_by_words(uint32_t call, uint32_t status, const uint8_t *font, size_t font_size, uint32_t index,
                                    const subsetter_coordinate *coordinates, size_t coordinate_count,
                                    const uint16_t *glyphs, size_t glyph_count,
                                    const uint32_t *options, size_t option_count,
                                    uint8_t *out, size_t out_size, size_t *length);

static inline uint32_t subsetter_explain(uint32_t call, uint32_t status, const uint8_t *font, size_t font_size, uint32_t index,
                                         const subsetter_coordinate *coordinates, size_t coordinate_count,
                                         const uint16_t *glyphs, size_t glyph_count,
                                         const subsetter_options *options,
                                         uint8_t *out, size_t out_size, size_t *length)
{
    return subsetter_explain_by_words(call, status, font, font_size, index, coordinates, coordinate_count, glyphs, glyph_count,
                                      subsetter_option_words(options), subsetter_option_count(options), out, out_size, length);
}

/* ---- all that a PDF has of a font (sections in brackets are those of ISO 32000-1) */

/* The glyph of each character of a text, by the font's table `cmap`: 0 where the font has none. `text` are 32-bit characters.
 * The text isn't shaped: there are no ligatures, no kerning and no reordering, which Arabic or Devanagari need.
 *   0: `glyphs` begins with the glyphs, and `*length` is `text_count`.
 *   8: there is room for less than `text_count` glyphs; `glyphs` is as it was, and `*length` is `text_count`.
 *   1, 2, 7, 12, 13: `glyphs` is as it was, and `*length` is 0.
 * The table is the first Unicode one of format 12, else of format 4, else of format 0, 6 or 13; else a symbol table, which has the
 * characters below U+0100 from U+F000 on; else one of Mac OS Roman. The font needs no outlines.
 */
uint32_t subsetter_glyphs_of(const uint8_t *font, size_t font_size, uint32_t index,
                             const uint32_t *text, size_t text_count,
                             uint16_t *glyphs, size_t glyph_count, size_t *length);

/* A glyph, and the characters of a text that are its text: from `start` up to before `end`. */
typedef struct subsetter_entry {
    uint16_t glyph;
    size_t start;
    size_t end;
} subsetter_entry;

/* How many entries there are, and how many places of what the font lacks. */
typedef struct subsetter_read_sizes {
    size_t entries;
    size_t missing;
} subsetter_read_sizes;

/* The same for what a page shows. A character with a variation selector is one entry, with the glyph of both. A default ignorable
 * (a soft hyphen, a joiner, a mark of direction) has none: it is text of the entry before it, or of the one after it where none is
 * before. A control, as a tab or a line end, has none. `missing` are the places of the controls and of the characters that the
 * font lacks, whose entries have glyph 0. `text_count` items are room enough for each list.
 *   0: both begin with their lists.
 *   8: one is too small; both are as they were, and `*sizes` is exact.
 *   1, 2, 7, 12, 13: both are as they were, and the sizes are 0.
 */
uint32_t subsetter_read_text(const uint8_t *font, size_t font_size, uint32_t index,
                             const uint32_t *text, size_t text_count,
                             subsetter_entry *entries, size_t entry_count,
                             size_t *missing, size_t missing_count, subsetter_read_sizes *sizes);

/* The advances of glyphs, horizontal and vertical, at coordinates (none: the font's default), in the font's units: exact, without
 * embedding, and whatever `fsType` permits. `widths` and `heights` have room for `glyph_count` each, and are in the order of
 * `glyphs`. A glyph without a height of its own has one of an em. Of the options `tokens` counts alone: how many steps a glyph may
 * take where its outline has to be moved for it.
 *   0: all three are written.
 *   1 to 8, 10: nothing is written.
 */
uint32_t subsetter_advances_by_words(const uint8_t *font, size_t font_size, uint32_t index,
                                     const subsetter_coordinate *coordinates, size_t coordinate_count,
                                     const uint16_t *glyphs, size_t glyph_count,
                                     const uint32_t *options, size_t option_count,
                                     uint16_t *widths, size_t width_count, uint16_t *heights, size_t height_count,
                                     uint32_t *units_per_em);

static inline uint32_t subsetter_advances(const uint8_t *font, size_t font_size, uint32_t index,
                                          const subsetter_coordinate *coordinates, size_t coordinate_count,
                                          const uint16_t *glyphs, size_t glyph_count,
                                          const subsetter_options *options,
                                          uint16_t *widths, uint16_t *heights, uint32_t *units_per_em)
{
    return subsetter_advances_by_words(font, font_size, index, coordinates, coordinate_count, glyphs, glyph_count,
                                       subsetter_option_words(options), subsetter_option_count(options), widths, glyph_count,
                                       heights, glyph_count, units_per_em);
}

/* Kinds of pictures that a font can have of a glyph, as bits: the lowest is the one that a reader of OpenType prefers. */
enum {
    /* A paint of `COLR` version 1, layers of version 0. */
    SUBSETTER_KIND_COLR_1 = 1,
    SUBSETTER_KIND_COLR_0 = 2,
    /* A document of `SVG `. */
    SUBSETTER_KIND_SVG = 4,
    /* An image of `CBDT` in format 17, 18, 19, or another. */
    SUBSETTER_KIND_CBDT_17 = 8,
    SUBSETTER_KIND_CBDT_18 = 16,
    SUBSETTER_KIND_CBDT_19 = 32,
    SUBSETTER_KIND_CBDT_OTHER = 64,
    /* A graphic of `sbix` of the type `png `, `jpg `, `tiff`, `pdf `, `mask`, `dupe` (that of another glyph), or another. */
    SUBSETTER_KIND_SBIX_PNG = 128,
    SUBSETTER_KIND_SBIX_JPG = 256,
    SUBSETTER_KIND_SBIX_TIFF = 512,
    SUBSETTER_KIND_SBIX_PDF = 1024,
    SUBSETTER_KIND_SBIX_MASK = 2048,
    SUBSETTER_KIND_SBIX_DUPE = 4096,
    SUBSETTER_KIND_SBIX_OTHER = 8192,
    /* An image of `EBDT`. */
    SUBSETTER_KIND_EBDT = 16384,
    /* An outline; none, or an empty one. Each glyph has one of the two bits. With another bit beside, SUBSETTER_KIND_EMPTY is a
     * glyph that a PDF shows as a blank. */
    SUBSETTER_KIND_OUTLINE = 32768,
    SUBSETTER_KIND_EMPTY = 65536
};

/* All kinds of pictures that a font has of each glyph, also where it has no outlines: one number for each of `glyphs`, in their
 * order. A picture is what a table lists, whether it can be drawn or not; a table that is cut or wrong lists none. An outline of
 * `CFF ` or `CFF2` is empty where its charstring is endchar alone, with or without a width; that of a glyph that the font lacks is.
 *   0: `kinds` begins with the numbers.
 *   1, 2, 7, 8 (`kind_count` is less than `glyph_count`): nothing is written.
 */
uint32_t subsetter_glyph_kinds(const uint8_t *font, size_t font_size, uint32_t index,
                               const uint16_t *glyphs, size_t glyph_count, uint32_t *kinds, size_t kind_count);

/* Whether a PDF shows a glyph of these kinds as a blank though the font has a picture of it. */
static inline int subsetter_is_unseen(uint32_t kinds)
{
    return (kinds & SUBSETTER_KIND_EMPTY) != 0 && kinds != SUBSETTER_KIND_EMPTY;
}

/* What the font program of a font with outlines in `CFF ` is (`program`). */
enum {
    /* The bytes of `CFF ` alone. */
    SUBSETTER_PROGRAM_SMALLEST = 0,
    /* The whole file (PDF 1.6). PDF/A-1 forbids it. */
    SUBSETTER_PROGRAM_OPENTYPE = 1
};

/* How the glyphs in use get codes (`codes`). Code 0 is that of glyph 0 in each. */
enum {
    /* The codes are the CIDs: from 1 on, in order of use. */
    SUBSETTER_CODES_CONSECUTIVE = 0,
    /* The code of a glyph is its number in the font, so that a page can be written before the font. */
    SUBSETTER_CODES_SOURCE = 1,
    /* Each pair of a glyph and a text has a code: from 1 on, in order of use. So one glyph can say "B" and "b". */
    SUBSETTER_CODES_EACH_TEXT = 2
};

/* The code of each entry, as `subsetter_make_font` gives it: it takes no font, so that pages can be written first. Where a list goes
 * on, the codes of the entries before stay. `kind` is one of SUBSETTER_CODES_..; entries are as for that call.
 *   0: `codes` begins with the codes, and `*length` is `glyph_count`.
 *   8: there is room for less; `codes` is as it was, and `*length` is `glyph_count`.
 *   5 (besides glyph 0 more than 65,534 glyphs, or pairs of a glyph and a text), 7, 10 (another kind), 12: `codes` is as it was, and
 *   `*length` is 0.
 */
uint32_t subsetter_codes_of(const uint16_t *glyphs, size_t glyph_count,
                            const uint32_t *text, size_t text_count,
                            const size_t *ends, size_t end_count,
                            uint32_t kind, uint16_t *codes, size_t code_count, size_t *length);

/* The string that shows codes, as "<00010002>", with a zero at the end, where `out` has room for that; else `out` is as it was. It returns
 * the string's length without the zero, 4 * code_count + 2, as snprintf does. */
static inline size_t subsetter_string(const uint16_t *codes, size_t code_count, char *out, size_t out_size)
{
    const size_t length = 4 * code_count + 2;
    if (out_size > length) {
        *out++ = '<';
        for (size_t i = 0; i < 4 * code_count; i++)
            *out++ = "0123456789ABCDEF"[(codes[i / 4] >> (12 - 4 * (i % 4))) & 15];
        *out++ = '>';
        *out = 0;
    }
    return length;
}

/* How text runs (`direction`). */
enum {
    SUBSETTER_HORIZONTAL = 0,
    /* From top to bottom. */
    SUBSETTER_VERTICAL = 1
};

/* Which glyphs FontBBox holds (`bounds`). */
enum {
    /* All glyphs of the font. */
    SUBSETTER_BOUNDS_FONT = 0,
    /* Those of the font program. Of outlines in `CFF ` it is as SUBSETTER_BOUNDS_FONT. */
    SUBSETTER_BOUNDS_KEPT = 1
};

/* Whose permission counts (`rights`). */
enum {
    /* That of the font's maker, as `fsType` of the table `OS/2` says it. */
    SUBSETTER_RIGHTS_FROM_FONT = 0,
    /* (its older name) */
    SUBSETTER_RIGHTS_AS_SAID = 0,
    /* The caller's, who may embed the font, whatever `fsType` says. */
    SUBSETTER_RIGHTS_HELD = 1
};

/* Three letters of a tag in a number. */
#define SUBSETTER_LETTERS(a, b, c) (((uint32_t)(uint8_t)(a) << 16) | ((uint32_t)(uint8_t)(b) << 8) | (uint32_t)(uint8_t)(c))

/* Whether runs of text make own glyphs (`own_glyphs`), which the font of the text gets after its own: of glyphs of the font, each
 * at a place, with an advance. Where they are made, more readers copy and find the text. */
enum {
    /* Where text is horizontal and the outlines are in `glyf`, or in `CFF `, where they are single glyphs with another advance. */
    SUBSETTER_OWN_GLYPHS_MADE = 0,
    /* None: the font of the text has glyphs of the font alone, and blanks. */
    SUBSETTER_OWN_GLYPHS_NONE = 1
};

/* All choices of a font for a PDF. It begins with the fields of `subsetter_options`, and what is said there of `size`, of later
 * versions and of 0 counts here too. A value that isn't among those above is status 10.
 *
 *     subsetter_pdf_options options = SUBSETTER_DEFAULT_PDF_OPTIONS;
 *     options.codes = SUBSETTER_CODES_SOURCE;
 */
typedef struct subsetter_pdf_options {
    /* sizeof (subsetter_pdf_options). */
    uint32_t size;
    /* As in `subsetter_options`. Names and glyph names are always dropped. */
    uint32_t tokens;
    uint32_t depth;
    uint32_t drop;
    uint32_t bytes;
    uint32_t program;
    uint32_t codes;
    uint32_t direction;
    uint32_t bounds;
    /* 1: there is a CIDSet (9.8.3), which PDF/A-1 demands. PDF 2.0 has none. */
    uint32_t cid_set;
    uint32_t rights;
    /* The tag in front of the font's name, six capitals, as SUBSETTER_LETTERS('A', 'B', 'C') and the like; 0, 0: it is computed
     * of the font program, so that equal programs have equal tags. */
    uint32_t tag[2];
    /* It counts for `subsetter_new_text` alone. */
    uint32_t own_glyphs;
} subsetter_pdf_options;

#define SUBSETTER_DEFAULT_PDF_OPTIONS { sizeof(subsetter_pdf_options), 0, 0, 0, 0, 0, 0, 0, 0, 0, 0, { 0, 0 }, 0 }

static inline const uint32_t *subsetter_pdf_option_words(const subsetter_pdf_options *options)
{
    return options == NULL ? NULL : &options->size;
}

static inline size_t subsetter_pdf_option_count(const subsetter_pdf_options *options)
{
    return options == NULL ? 0 : options->size < 4 ? 1 : options->size / 4;
}

/* A CID in vertical writing (9.7.4.3), in thousandths of the em. */
typedef struct subsetter_column {
    /* From one glyph to the next, mostly below 0: downwards. */
    int32_t advance;
    /* The origin of vertical writing, to the right of that of horizontal writing, and above it. */
    int32_t x;
    int32_t y;
} subsetter_column;

/* What the font program is (`kind`; 9.9). */
enum {
    /* A TrueType file: FontFile2. */
    SUBSETTER_KIND_TRUETYPE = 0,
    /* The bytes of `CFF `: FontFile3 of the subtype CIDFontType0C. */
    SUBSETTER_KIND_BARE_CFF = 1,
    /* An OpenType file with outlines in `CFF `: FontFile3 of the subtype OpenType. */
    SUBSETTER_KIND_OPENTYPE = 2
};

/* What a document may do with the font, as its maker says (`usage`). */
enum {
    SUBSETTER_USAGE_UNSAID = 0,
    SUBSETTER_USAGE_INSTALLABLE = 1,
    SUBSETTER_USAGE_EDITABLE = 2,
    SUBSETTER_USAGE_PREVIEW_AND_PRINT = 3,
    SUBSETTER_USAGE_RESTRICTED = 4
};

/* All that a PDF has of a font: lists that the caller only reads, and numbers. Where a size or a count is 0, its pointer says
 * nothing. An entry is a glyph in use with its text, as the call was given them. Lengths are in thousandths of the em. No later
 * version changes this struct: what is new is in `subsetter_font`, which has this one as a field. */
typedef struct subsetter_pdf_font {
    /* The font program, in bytes. */
    const uint8_t *program;
    size_t program_size;
    /* The CID of each entry. */
    const uint16_t *cids;
    size_t cid_count;
    /* The code of each entry, which strings hold in two bytes, the higher first. */
    const uint16_t *codes;
    size_t code_count;
    /* Of each entry 1 where readers find its text by its code; where it is 0, the page says it by an ActualText (14.9.4). */
    const uint8_t *is_said;
    size_t said_count;
    /* The width of each CID of the font program. */
    const uint32_t *widths;
    size_t width_count;
    /* In vertical writing of each CID from 0 on that a string can show. */
    const subsetter_column *columns;
    size_t column_count;
    /* FontName, in ASCII without a zero at the end. */
    const uint8_t *font_name;
    size_t font_name_size;
    /* The ToUnicode CMap (9.10.3). */
    const uint8_t *to_unicode;
    size_t to_unicode_size;
    /* The CMap from codes to CIDs, and its name; nothing where each code is its CID (`Identity-H`, `Identity-V`). */
    const uint8_t *encoding;
    size_t encoding_size;
    const uint8_t *encoding_name;
    size_t encoding_name_size;
    /* The bytes of CIDSet, if it was chosen. */
    const uint8_t *cid_set;
    size_t cid_set_size;
    /* SUBSETTER_KIND_TRUETYPE, .._BARE_CFF or .._OPENTYPE. */
    uint32_t kind;
    /* 1: text runs from top to bottom. */
    uint32_t is_vertical;
    /* DW, and DW2 (y and advance; 0, 0 in horizontal writing). */
    uint32_t default_width;
    int32_t default_column[2];
    /* The font descriptor (Table 122). ItalicAngle is in thousandths of a degree, counterclockwise. */
    uint32_t flags;
    int32_t bounds[4];
    int32_t italic_angle;
    int32_t ascent;
    int32_t descent;
    int32_t cap_height;
    /* 0: there is no XHeight. */
    uint32_t has_x_height;
    int32_t x_height;
    uint32_t stem_v;
    uint32_t font_weight;
    /* One of SUBSETTER_USAGE_.., and 1 where subsets and outlines may be embedded. */
    uint32_t usage;
    uint32_t may_subset;
    uint32_t may_embed_outlines;
} subsetter_pdf_font;

/* All that a PDF has of a font, and what it was made of. It is given back by `subsetter_free_font`. */
typedef struct subsetter_font {
    /* sizeof (subsetter_font), which the inline calls write; another is status 10, and then nothing is written. Later versions
     * put further fields after these, and go on to take this size. 0: there is no font, as the inline call failed. */
    uint32_t size;
    /* unitsPerEm: how many units an em has. */
    uint32_t units_per_em;
    subsetter_pdf_font pdf;
    /* The advance of each CID of the font program, in the font's units: `pdf.widths` are these in thousandths of the em. */
    const uint16_t *exact_widths;
    size_t exact_width_count;
    /* The axes of the coordinates that the font doesn't have, each once, as SUBSETTER_TAG makes them. */
    const uint32_t *unknown_axes;
    size_t unknown_axis_count;
    /* The entries that it was made of: glyphs, the characters of all, and where those of each end. */
    const uint16_t *glyphs;
    size_t glyph_count;
    const uint32_t *text;
    size_t text_count;
    const size_t *ends;
    size_t end_count;
    /* The bytes of CIDToGIDMap (9.7.4.2), where it is a stream: of a text's font with TrueType outlines. */
    const uint8_t *cid_to_gid_map;
    size_t cid_to_gid_map_size;
} subsetter_font;

/* All that a PDF has of a font for the glyphs in use, at coordinates (none: the font's default).
 *
 * `glyphs` are in order of use, with repeats if need be. The text of each is none, a character, or several (a ligature): `text`
 * are the 32-bit characters of all entries, and `ends` says for each entry where its characters end there; they begin where
 * those of the entry before end. So `end_count` is `glyph_count`, and the last end `text_count`: they are no lengths. Where each
 * glyph has one character, `ends` is 1, 2, 3 and so on.
 *   0: `*made` is the font.
 *   1 to 7, 10 to 12, 14: all sizes, counts and numbers of `*made` are 0 (`made->size` by the inline call), and nothing is to be freed. First
 *   comes 10, then a text that isn't one (12), 14, what is found in opening the font, 11, a text that is too long (12), and then what
 *   `subsetter_embed_at_by_words` returns. 2 also where outlines in `glyf` have no `maxp`; 5 also for more than 65,534 pairs of a
 *   glyph and a text besides glyph 0.
 * `made` is written by each call and must not be null; what it held before isn't freed. No value of the font descriptor is a
 * reason to refuse a font: where a table is missing or cut, another source of the value is taken.
 */
uint32_t subsetter_make_font_by_words(const uint8_t *font, size_t font_size, uint32_t index,
                                      const subsetter_coordinate *coordinates, size_t coordinate_count,
                                      const uint16_t *glyphs, size_t glyph_count,
                                      const uint32_t *text, size_t text_count,
                                      const size_t *ends, size_t end_count,
                                      const uint32_t *options, size_t option_count,
                                      subsetter_font *made);

/* The status of a call that makes a font. Where it failed there is no font, and the calls for one answer 10. */
static inline uint32_t subsetter_font_status(uint32_t status, subsetter_font *made)
{
    made->size = status == SUBSETTER_DONE ? made->size : 0;
    return status;
}

static inline uint32_t subsetter_make_font(const uint8_t *font, size_t font_size, uint32_t index,
                                           const subsetter_coordinate *coordinates, size_t coordinate_count,
                                           const uint16_t *glyphs, size_t glyph_count,
                                           const uint32_t *text, size_t text_count,
                                           const size_t *ends, size_t end_count,
                                           const subsetter_pdf_options *options, subsetter_font *made)
{
    made->size = sizeof(subsetter_font);
    return subsetter_font_status(subsetter_make_font_by_words(font, font_size, index, coordinates, coordinate_count, glyphs,
                                                              glyph_count, text, text_count, ends, end_count,
                                                              subsetter_pdf_option_words(options),
                                                              subsetter_pdf_option_count(options), made), made);
}

/* The same of a text in UTF-8, of `text_size` bytes: each character has the glyph that `cmap` gives it (see `subsetter_glyphs_of`),
 * and is the text of it. Statuses of both; 12 where it isn't UTF-8. `subsetter_explain` takes the glyphs of `subsetter_glyphs_of`. */
uint32_t subsetter_make_pdf_font_of_utf8_by_words(const uint8_t *font, size_t font_size, uint32_t index,
                                                  const subsetter_coordinate *coordinates, size_t coordinate_count,
                                                  const uint8_t *text, size_t text_size,
                                                  const uint32_t *options, size_t option_count,
                                                  subsetter_font *made);

static inline uint32_t subsetter_make_pdf_font_of_utf8(const uint8_t *font, size_t font_size, uint32_t index,
                                                       const subsetter_coordinate *coordinates, size_t coordinate_count,
                                                       const char *text, size_t text_size,
                                                       const subsetter_pdf_options *options, subsetter_font *made)
{
    made->size = sizeof(subsetter_font);
    return subsetter_font_status(subsetter_make_pdf_font_of_utf8_by_words(font, font_size, index, coordinates, coordinate_count,
                                                                          (const uint8_t *)text, text_size,
                                                                          subsetter_pdf_option_words(options),
                                                                          subsetter_pdf_option_count(options), made), made);
}

/* Gives back what these two handed over, and sets all but `size` to 0. Also after a call that failed, or with a null pointer. */
void subsetter_free_font(subsetter_font *made);

/* A part of a PDF file, or a whole one, which the caller only reads, and gives back by `subsetter_free_pdf_objects`. Where the
 * size or the count is 0, its pointer says nothing. */
typedef struct subsetter_pdf_objects {
    const uint8_t *bytes;
    size_t size;
    /* Where each object begins in the bytes; of a whole file nothing. */
    const size_t *offsets;
    size_t offset_count;
} subsetter_pdf_objects;

/* The objects of a font, whole, with numbers from `first` on, which is above 0 (that isn't checked): the Type 0 font, which pages
 * name, its CIDFont, the font descriptor, the font program, ToUnicode, CIDToGIDMap if it is a stream, CIDSet if there is one, and
 * the CMap if the file has its own. Streams have no filter, and it is for files that aren't encrypted. `font` is one that a `make`
 * call made, unchanged (that isn't checked: of one that was freed the objects are of no font, with status 0).
 *   0: `*made` are the objects, one after the other.
 *   5: seven numbers from `first` on, eight with a CIDToGIDMap as a stream, don't fit 32 bits; 7: malloc gave nothing; 10: an unknown
 *   `font->size`, or no font. The size and the count of `*made` are 0, and nothing is to be freed.
 */
uint32_t subsetter_make_objects(const subsetter_font *font, uint32_t first, subsetter_pdf_objects *made);

/* The same of a font in the older struct, which is also `&font.pdf` of a `subsetter_font` that isn't a text's. */
uint32_t subsetter_make_pdf_objects(const subsetter_pdf_font *font, uint32_t first, subsetter_pdf_objects *made);

/* How a sheet shows glyphs. */
enum {
    /* In one line, or in vertical writing in one column, on a page that is as long. */
    SUBSETTER_LAYOUT_LINE = 0,
    /* Each in a cell of its own, 12 by 16 a page. */
    SUBSETTER_LAYOUT_GRID = 1
};

/* A whole PDF file that shows glyphs in 36 points. Glyphs, text and ends are those that the font was made of, or the first of
 * them.
 *   0: `made->bytes` is the file, and the count of offsets is 0.
 *   5, 7, 10 (another layout), 12: the size and the count of `*made` are 0, and nothing is to be freed.
 */
uint32_t subsetter_make_pdf_sheet(const subsetter_pdf_font *font,
                                  const uint16_t *glyphs, size_t glyph_count,
                                  const uint32_t *text, size_t text_count,
                                  const size_t *ends, size_t end_count,
                                  uint32_t layout, subsetter_pdf_objects *made);

/* The same of all entries that a font was made of. 10: also where there is no font. */
static inline uint32_t subsetter_make_sheet(const subsetter_font *font, uint32_t layout, subsetter_pdf_objects *made)
{
    /* (the library writes `made` where the layout is none, too) */
    return subsetter_make_pdf_sheet(&font->pdf, font->glyphs, font->glyph_count, font->text, font->text_count, font->ends,
                                    font->end_count, font->units_per_em == 0 ? 0xFFFFFFFF : layout, made);
}

/* Gives back what these handed over, and sets all to 0. */
void subsetter_free_pdf_objects(subsetter_pdf_objects *made);

/* ---- the objects as data, so that a writer can pack and encrypt them */

/* What a part is (`role`). */
enum {
    /* The Type 0 font, which pages name (9.7.6). */
    SUBSETTER_ROLE_FONT = 0,
    /* Its CIDFont (9.7.4). */
    SUBSETTER_ROLE_CID_FONT = 1,
    /* The font descriptor (9.8). */
    SUBSETTER_ROLE_DESCRIPTOR = 2,
    /* The font program (9.9). */
    SUBSETTER_ROLE_PROGRAM = 3,
    /* ToUnicode (9.10.3). */
    SUBSETTER_ROLE_TO_UNICODE = 4,
    /* CIDSet (9.8.3). */
    SUBSETTER_ROLE_CID_SET = 5,
    /* The CMap of the file's own (9.7.5). */
    SUBSETTER_ROLE_ENCODING = 6,
    /* CIDToGIDMap (9.7.4.2). */
    SUBSETTER_ROLE_CID_TO_GID_MAP = 7
};

/* Bytes from `start` up to `end`, without that. */
typedef struct subsetter_pdf_range {
    size_t start;
    size_t end;
} subsetter_pdf_range;

/* An object: a dictionary, or a stream with its dictionary. */
typedef struct subsetter_pdf_part {
    /* One of SUBSETTER_ROLE_.. */
    uint32_t role;
    /* The number that the caller gave it. */
    uint32_t number;
    /* The entries of its dictionary, each with a blank after it, without `<<`, `>>`, Length and Filter. The object is "<< ", these and
     * ">>"; that of a stream "<< ", these, "/Length N >>", a line end, "stream", a line end, its bytes, a line end and "endstream".
     * Where a caller packs the bytes, it adds Filter, and Length is that of what it packed. */
    const uint8_t *entries;
    size_t entries_size;
    /* Where strings are in the entries, with their parentheses: a file that is encrypted has other ones in their place (7.6). */
    const subsetter_pdf_range *strings;
    size_t string_count;
    /* 1: it is a stream, of these bytes, which are those of the font. */
    uint32_t is_stream;
    const uint8_t *stream;
    size_t stream_size;
} subsetter_pdf_part;

/* All parts of a font, which the caller only reads, as long as it keeps the font, and gives back by `subsetter_free_pdf_parts`. */
typedef struct subsetter_pdf_parts {
    const subsetter_pdf_part *parts;
    size_t part_count;
} subsetter_pdf_parts;

/* How many parts a font has: 5, one more with a CIDToGIDMap as a stream, with a CIDSet, and with a CMap of the file's own. */
uint32_t subsetter_pdf_part_count(const subsetter_font *font);

/* The parts of a font, in the order of `subsetter_make_objects`. `numbers` are `subsetter_pdf_part_count` numbers of objects, of generation 0, distinct
 * and above 0, the Type 0 font's first.
 *   0: `*made` are the parts.
 *   7, 10 (an unknown `font->size`), 16: the count of `*made` is 0, and nothing is to be freed.
 */
uint32_t subsetter_make_pdf_parts(const subsetter_font *font, const uint32_t *numbers, size_t number_count, subsetter_pdf_parts *made);

/* Gives the parts back, and sets both fields to 0. The font stays. */
void subsetter_free_pdf_parts(subsetter_pdf_parts *made);

/* ---- runs of shaped text
 *
 * The operators of a page for glyphs that a shaper such as HarfBuzz gave, so that readers copy and find their text, and then the
 * font of all that was shown:
 *
 *     subsetter_text text;
 *     subsetter_pdf_objects line;
 *     subsetter_font made;
 *     status = subsetter_new_text(data, size, 0, NULL, 0, NULL, &text);
 *     hb_shape(..);
 *     subsetter_hb_shaped(hb_buffer_get_glyph_infos(..), hb_buffer_get_glyph_positions(..), count, shaped);
 *     status = subsetter_show_shaped(&text, shaped, count, "fi", 2, 8, SUBSETTER_LEFT_TO_RIGHT, SUBSETTER_ORDER_VISUAL, 12000, &line);
 *     .. "BT /F1 12 Tf 72 720 Td ", the bytes of `line`, "ET" ..
 *     status = subsetter_make_text_font(&text, NULL, &made);
 *     .. the objects or the parts of `made` ..
 *     subsetter_free_font(&made);
 *     subsetter_free_pdf_objects(&line);
 *     subsetter_free_text(&text);
 */

/* How the glyphs of a run follow each other (`direction` of the calls for runs). They are in visual order, as a shaper gives them. */
enum {
    SUBSETTER_LEFT_TO_RIGHT = 0,
    /* From left to right, and the text is read from the last glyph to the first. */
    SUBSETTER_RIGHT_TO_LEFT = 1,
    /* From top to bottom: of a vertical text alone, which has no others. */
    SUBSETTER_TOP_TO_BOTTOM = 2
};

/* The order in which the glyphs of a run are written (`order`). */
enum {
    /* As they are seen. More readers copy the text rightly so. */
    SUBSETTER_ORDER_VISUAL = 0,
    /* As the text is read, for a tagged PDF: those of a run from right to left from the last to the first. */
    SUBSETTER_ORDER_LOGICAL = 1
};

/* A glyph's metrics, in thousandths of the em. */
typedef struct subsetter_metrics {
    /* How far the pen goes on: the width in W, or in vertical writing w1y in W2 (9.7.4.3). */
    int32_t displacement;
    /* In vertical writing the y of the position vector, else 0. */
    int32_t position;
} subsetter_metrics;

/* What a code draws and says. */
typedef struct subsetter_pair {
    /* 0: `glyph`; 1: a blank, which has no ink and no advance. Later versions may have further kinds. */
    uint32_t kind;
    /* A glyph of the font, or `metric_count` and more: an own glyph of the text; of a blank 0. */
    uint32_t glyph;
    /* A character; 0xFFFFFFFF: the code says nothing. */
    uint32_t character;
} subsetter_pair;

/* An own glyph of a text. */
typedef struct subsetter_own_glyph {
    /* In units of the font. */
    uint32_t advance;
    /* How many parts there are up to the end of its own, which begin where those of the one before it end. */
    uint32_t part_end;
} subsetter_own_glyph;

/* A part of an own glyph: a glyph of the font, and how far it is from the origin of the own glyph, in units of the font. */
typedef struct subsetter_part {
    uint32_t glyph;
    int32_t x;
    int32_t y;
} subsetter_part;

/* A text: what its runs need of the font, and which codes they have. The caller only reads the fields, hands it to one call at a
 * time, and gives it back by `subsetter_free_text`. It borrows the font, which has to stay, unchanged, as long as calls take the
 * text. */
typedef struct subsetter_text {
    /* sizeof (subsetter_text), which the inline call writes; for another the calls return 10. Later versions put further fields
     * after these, and go on to take this size. */
    uint32_t size;
    /* unitsPerEm. 0: there is no text, and the calls return 10; so they do where `most_parts` hasn't 16 bits. */
    uint32_t units_per_em;
    /* The font, which is the caller's. */
    const uint8_t *font;
    size_t font_size;
    /* The coordinates, a copy. */
    const subsetter_coordinate *coordinates;
    size_t coordinate_count;
    /* Of each glyph of the font. */
    const subsetter_metrics *metrics;
    size_t metric_count;
    /* Of each glyph 1 where it has ink; past the end nothing is known. */
    const uint8_t *inked;
    size_t inked_count;
    /* Of each code from 1 on. Code 0 is glyph 0, and says nothing. */
    const subsetter_pair *pairs;
    size_t pair_count;
    /* The face of a collection. */
    uint32_t index;
    /* 1: text runs from top to bottom. */
    uint32_t is_vertical;
    /* The advance of each glyph, in units of the font. Without own glyphs there are none. */
    const uint16_t *advances;
    size_t advance_count;
    /* Of each glyph 1 where it can be a part of an own glyph; past the end it can't. */
    const uint8_t *partable;
    size_t partable_count;
    /* The own glyphs that the runs so far have made, in the order in which they came. */
    const subsetter_own_glyph *own;
    size_t own_count;
    /* The parts of all own glyphs, one after the other. */
    const subsetter_part *parts;
    size_t part_count;
    /* How many parts an own glyph can have; 0: none are made. */
    uint32_t most_parts;
    /* 1: an own glyph is a glyph at its origin, with another advance, or none; so it is with outlines in `CFF `. */
    uint32_t is_still;
} subsetter_text;

/* A text of a font, at coordinates (none: the font's default), before its first run. The options are those for the font; here
 * `tokens` and `depth` count, as limits, `direction`: with SUBSETTER_VERTICAL the text is vertical, and `own_glyphs`: a horizontal
 * text makes own glyphs unless it is SUBSETTER_OWN_GLYPHS_NONE; a vertical one makes none.
 *   0: `*made` is the text.
 *   1 to 7, 10: all of `*made` is 0 (but for `made->size`), and nothing is to be freed. 2 also where `maxp` is missing.
 * `made` is written by each call and must not be null; what it held before isn't freed.
 */
uint32_t subsetter_new_text_by_words(const uint8_t *font, size_t font_size, uint32_t index,
                                     const subsetter_coordinate *coordinates, size_t coordinate_count,
                                     const uint32_t *options, size_t option_count,
                                     subsetter_text *made);

static inline uint32_t subsetter_new_text(const uint8_t *font, size_t font_size, uint32_t index,
                                          const subsetter_coordinate *coordinates, size_t coordinate_count,
                                          const subsetter_pdf_options *options, subsetter_text *made)
{
    made->size = sizeof(subsetter_text);
    return subsetter_new_text_by_words(font, font_size, index, coordinates, coordinate_count, subsetter_pdf_option_words(options),
                                       subsetter_pdf_option_count(options), made);
}

/* Gives a text back, and sets all but `size` to 0. Also after a call that failed, or with a null pointer. The font stays. */
void subsetter_free_text(subsetter_text *text);

/* A glyph of a run, in units of the font; y goes up. */
typedef struct subsetter_item {
    /* The number of the glyph in the font. */
    uint32_t glyph;
    /* 0: a cluster begins here, whose text are the characters from `start` up to `end`. Else the glyph continues a cluster. */
    uint32_t continues;
    uint32_t start;
    uint32_t end;
    /* How far the pen goes on; in horizontal writing y_advance is to be 0, in vertical writing x_advance. */
    int32_t x_advance;
    int32_t y_advance;
    /* How far the glyph is from the pen. */
    int32_t x_offset;
    int32_t y_offset;
} subsetter_item;

/* The operators that show a run, for a content stream: between BT and ET, after Tf and Td or Tm, where Tc, Tw and Ts are 0 and Tz is
 * 100. The pen goes on by the run's advance, and Ts is 0 then. `characters` are 32-bit characters, of which the items have ranges;
 * `size` is that of the font, in thousandths of a unit of text space (12000 for 12 points); it counts for Ts alone. Each run takes
 * time for the codes that the text has, too: a few long runs are done sooner than many short ones.
 *   0: `made->bytes` are the operators, the count of offsets is 0, and the text has the codes and the own glyphs of the run. Those
 *   of earlier runs stay.
 *   7, 10 (a direction that isn't the text's, another order, or no text), 12 (a number is no character, a range isn't in order, a
 *   glyph isn't the font's, the first one continues a cluster, an advance isn't along the line, a place doesn't fit 32 bits, an
 *   ActualText would have more than 32,767 bytes; or the text's own glyphs aren't such: an advance, a glyph or a place hasn't 16
 *   bits, or `part_end` falls or is past the parts), 15 (there would be too many codes or glyphs): the size and the count of
 *   `*made` are 0, nothing is to be freed, and the text is as it was.
 */
uint32_t subsetter_show_run(subsetter_text *text, const subsetter_item *items, size_t item_count,
                            const uint32_t *characters, size_t character_count,
                            uint32_t direction, uint32_t order, uint32_t size,
                            subsetter_pdf_objects *made);

/* A glyph as HarfBuzz gives it, in units of the font: of `hb_glyph_info_t` and `hb_glyph_position_t`. */
typedef struct subsetter_shaped {
    /* The number of the glyph in the font (`codepoint` of hb.h). */
    uint32_t glyph;
    /* How many units of the text are before its cluster. */
    uint32_t cluster;
    int32_t x_advance;
    int32_t y_advance;
    int32_t x_offset;
    int32_t y_offset;
} subsetter_shaped;

/* The same of glyphs with cluster numbers, of a text of 8-bit, 16-bit or 32-bit units (UTF-8, UTF-16 or UTF-32; `unit_width` is 8, 16
 * or 32), which the numbers count. A cluster's text goes from its number to the next greater one of the run, or to the end.
 * Statuses are those of `subsetter_show_run`; 10 also for another width, 12 also where the units are no text, a number isn't where a
 * character begins, or numbers fall in reading order.
 */
uint32_t subsetter_show_shaped(subsetter_text *text, const subsetter_shaped *glyphs, size_t glyph_count,
                               const void *units, size_t unit_count, uint32_t unit_width,
                               uint32_t direction, uint32_t order, uint32_t size,
                               subsetter_pdf_objects *made);

/* The glyphs that HarfBuzz has shaped, where hb.h was included before this header. Its font has the scale of units per em. */
#ifdef HB_H
static inline void subsetter_hb_shaped(const hb_glyph_info_t *infos, const hb_glyph_position_t *positions, size_t count,
                                       subsetter_shaped *glyphs)
{
    for (size_t i = 0; i < count; i++) {
        glyphs[i].glyph = infos[i].codepoint;
        glyphs[i].cluster = infos[i].cluster;
        glyphs[i].x_advance = positions[i].x_advance;
        glyphs[i].y_advance = positions[i].y_advance;
        glyphs[i].x_offset = positions[i].x_offset;
        glyphs[i].y_offset = positions[i].y_offset;
    }
}
#endif

/* All that a PDF has of the font of a text, for the runs that were shown so far; it may be asked again after further ones. The codes
 * are the CIDs, and it has no entries. Of the options `codes`, `program` and `direction` have no effect.
 *   0: `*made` is the font, which is given back by `subsetter_free_font`.
 *   1 to 7, 10 (also where there is no text), 11: as for `subsetter_make_font_by_words`.
 *   12: the own glyphs of the text aren't such, as for `subsetter_show_run`; the rest as there.
 */
uint32_t subsetter_make_text_font_by_words(const subsetter_text *text, const uint32_t *options, size_t option_count,
                                           subsetter_font *made);

static inline uint32_t subsetter_make_text_font(const subsetter_text *text, const subsetter_pdf_options *options,
                                                subsetter_font *made)
{
    made->size = sizeof(subsetter_font);
    return subsetter_font_status(subsetter_make_text_font_by_words(text, subsetter_pdf_option_words(options),
                                                                   subsetter_pdf_option_count(options), made), made);
}

/* A run on a page of its own: its operators, which were shown with 36000 as their size, and how far the pen goes on, in thousandths of
 * the em, without a sign. */
typedef struct subsetter_line {
    const uint8_t *operators;
    size_t size;
    uint32_t advance;
} subsetter_line;

/* A whole PDF file of runs of a text in 36 points. The font is that of the text, made after the last of them. A page is as long as its
 * line with margins of 36 points, and has at most 14,400 points; without runs there are no pages.
 *   0: `made->bytes` is the file, and the count of offsets is 0.
 *   5, 7, 10 (an unknown `font->size`): the size and the count of `*made` are 0, and nothing is to be freed.
 */
uint32_t subsetter_make_text_sheet(const subsetter_font *font, const subsetter_line *lines, size_t line_count,
                                   subsetter_pdf_objects *made);

/* ---- a font in the older struct */

/* The same without what is new in `subsetter_font`: what its field `pdf` is. */
uint32_t subsetter_make_pdf_font_by_words(const uint8_t *font, size_t font_size, uint32_t index,
                                          const subsetter_coordinate *coordinates, size_t coordinate_count,
                                          const uint16_t *glyphs, size_t glyph_count,
                                          const uint32_t *text, size_t text_count,
                                          const size_t *ends, size_t end_count,
                                          const uint32_t *options, size_t option_count,
                                          subsetter_pdf_font *made);

static inline uint32_t subsetter_make_pdf_font(const uint8_t *font, size_t font_size, uint32_t index,
                                               const subsetter_coordinate *coordinates, size_t coordinate_count,
                                               const uint16_t *glyphs, size_t glyph_count,
                                               const uint32_t *text, size_t text_count,
                                               const size_t *ends, size_t end_count,
                                               const subsetter_pdf_options *options, subsetter_pdf_font *made)
{
    return subsetter_make_pdf_font_by_words(font, font_size, index, coordinates, coordinate_count, glyphs, glyph_count, text,
                                            text_count, ends, end_count, subsetter_pdf_option_words(options),
                                            subsetter_pdf_option_count(options), made);
}

/* Gives back what `subsetter_make_pdf_font` handed over, and sets all to 0, as `subsetter_free` does. */
void subsetter_free_pdf_font(subsetter_pdf_font *made);

/* ---- a subset in the caller's buffer */

/* The subset of a font.
 *
 * `out` is room for `out_size` bytes; the subset is mostly smaller than the font, but not always.
 *   0: `out` begins with the subset, the bytes after it are as they were, and `*length` is its size in bytes.
 *   8: `out` is too small and as it was; `*length` is the exact size in bytes. Call again with that room: the
 *      same call gives the same bytes, or 7.
 *   1 to 7: `out` is as it was, and `*length` is 0.
 */
uint32_t subsetter_subset(const uint8_t *font, size_t font_size, uint32_t index,
                          const uint16_t *glyphs, size_t glyph_count,
                          uint8_t *out, size_t out_size, size_t *length);

/* The same with limits on the charstring of a glyph (CFF outlines): at most `tokens` numbers and operators, and a depth of
 * at most `depth`, where the glyph's own charstring is at depth 1. `subsetter_subset` takes 1000000 and 64.
 *   9: `depth` is 0; `out` is as it was, and `*length` is 0.
 */
uint32_t subsetter_subset_with_limits(const uint8_t *font, size_t font_size, uint32_t index,
                                      const uint16_t *glyphs, size_t glyph_count,
                                      uint32_t tokens, uint8_t depth,
                                      uint8_t *out, size_t out_size, size_t *length);

/* The same with all choices.
 *   10: an option is unknown; `out` is as it was, and `*length` is 0.
 */
uint32_t subsetter_subset_by_words(const uint8_t *font, size_t font_size, uint32_t index,
                                   const uint16_t *glyphs, size_t glyph_count,
                                   const uint32_t *options, size_t option_count,
                                   uint8_t *out, size_t out_size, size_t *length);

static inline uint32_t subsetter_subset_with_options(const uint8_t *font, size_t font_size, uint32_t index,
                                                     const uint16_t *glyphs, size_t glyph_count,
                                                     const subsetter_options *options,
                                                     uint8_t *out, size_t out_size, size_t *length)
{
    return subsetter_subset_by_words(font, font_size, index, glyphs, glyph_count, subsetter_option_words(options),
                                     subsetter_option_count(options), out, out_size, length);
}

/* ---- at a place on the axes of a variable font */

/* The subset of a font as it is at these coordinates, with all choices.
 *
 * An axis without a value stays at its default, of several values for an axis the last counts, one past an axis's end is that
 * end, and a tag that the font doesn't have is passed over (`unknown_axes` of `subsetter_make_font` has it, also for no glyphs).
 * Where the font is at its default, has no axes or has its outlines in `CFF `, it is subset as it is, with its hints. Else the
 * new font is a static one: each glyph is a simple outline without instructions, as the font draws it there, with the advance
 * that it has there, and there are no further glyphs.
 *
 * A font with outlines in `CFF2`, and neither `glyf` nor `CFF `, is made static at its default too, also without axes: the new
 * font has outlines in a CID-keyed `CFF `, with their stems, and each coordinate is rounded once.
 *
 * The answers are those of `subsetter_subset_by_words`; besides, where there are outlines in `glyf`:
 *   2: what says how the font varies (`fvar`, `avar`, `gvar`, `HVAR`) is cut.
 *   3: `avar` has another version than 1, or a glyph is put together in a way that isn't taken.
 *   5: a glyph takes more steps than `tokens`, which bounds them here: one for each glyph that it leads to, each point, each
 *      tuple, and each point again of a tuple that counts; or a coordinate or an advance doesn't fit its 16 bits.
 * And where there are outlines in `CFF2` alone:
 *   2: `CFF2`, what says how the font varies (`fvar`, `avar`, `HVAR`, `MVAR`), or a table of metrics is cut.
 *   3: `fvar`, `avar`, `HVAR` or `MVAR` has another version than 1.
 *   5: a coordinate, a step between two or an advance doesn't fit its 16 bits (an advance: 32767).
 *   6: a charstring can't be run, or not within `tokens` and `depth`.
 */
uint32_t subsetter_subset_at_by_words(const uint8_t *font, size_t font_size, uint32_t index,
                                      const subsetter_coordinate *coordinates, size_t coordinate_count,
                                      const uint16_t *glyphs, size_t glyph_count,
                                      const uint32_t *options, size_t option_count,
                                      uint8_t *out, size_t out_size, size_t *length);

static inline uint32_t subsetter_subset_at(const uint8_t *font, size_t font_size, uint32_t index,
                                           const subsetter_coordinate *coordinates, size_t coordinate_count,
                                           const uint16_t *glyphs, size_t glyph_count,
                                           const subsetter_options *options,
                                           uint8_t *out, size_t out_size, size_t *length)
{
    return subsetter_subset_at_by_words(font, font_size, index, coordinates, coordinate_count, glyphs, glyph_count,
                                        subsetter_option_words(options), subsetter_option_count(options), out, out_size,
                                        length);
}

/* ---- with CIDs and widths */

/* How large the parts of an embedded font are. */
typedef struct subsetter_sizes {
    /* The font, in bytes. */
    size_t font;
    /* The CIDs: `glyph_count`. */
    size_t cids;
    /* The widths: one for each CID of glyph 0 and the given glyphs; at most `glyph_count` + 1. */
    size_t widths;
} subsetter_sizes;

/* The subset of a font, the CID of each given glyph in the order given, and the width of each CID from 0 on, in
 * thousandths of the em, rounded to the nearest. `cid_count` and `width_count` say for how many items there is room:
 * `glyph_count` CIDs and `glyph_count` + 1 widths always suffice, so that only the font's size has to be asked.
 *   0: each buffer begins with its part, what is after it is as it was, and `*sizes` are the sizes.
 *   8: one of the buffers is too small, and all are as they were; `*sizes` are the exact sizes. Call again with that
 *      room: the same call gives the same, or 7.
 *   1 to 7: the buffers are as they were, and `*sizes` are 0. 2 also where the font has no `hmtx` or no `head`, or 0 units
 *   per em.
 */
uint32_t subsetter_embed(const uint8_t *font, size_t font_size, uint32_t index,
                         const uint16_t *glyphs, size_t glyph_count,
                         uint8_t *out, size_t out_size,
                         uint16_t *cids, size_t cid_count,
                         uint32_t *widths, size_t width_count,
                         subsetter_sizes *sizes);

/* The same with all choices.
 *   10: an option is unknown; the buffers are as they were, and `*sizes` are 0.
 */
uint32_t subsetter_embed_by_words(const uint8_t *font, size_t font_size, uint32_t index,
                                  const uint16_t *glyphs, size_t glyph_count,
                                  const uint32_t *options, size_t option_count,
                                  uint8_t *out, size_t out_size,
                                  uint16_t *cids, size_t cid_count,
                                  uint32_t *widths, size_t width_count,
                                  subsetter_sizes *sizes);

static inline uint32_t subsetter_embed_with_options(const uint8_t *font, size_t font_size, uint32_t index,
                                                    const uint16_t *glyphs, size_t glyph_count,
                                                    const subsetter_options *options,
                                                    uint8_t *out, size_t out_size,
                                                    uint16_t *cids, size_t cid_count,
                                                    uint32_t *widths, size_t width_count,
                                                    subsetter_sizes *sizes)
{
    return subsetter_embed_by_words(font, font_size, index, glyphs, glyph_count, subsetter_option_words(options),
                                    subsetter_option_count(options), out, out_size, cids, cid_count, widths, width_count,
                                    sizes);
}

/* The same of a font as it is at coordinates, which are as for `subsetter_subset_at_by_words`: the font is the one that that
 * call gives, and a width is the advance that its glyph has there. The statuses are those of both calls.
 */
uint32_t subsetter_embed_at_by_words(const uint8_t *font, size_t font_size, uint32_t index,
                                     const subsetter_coordinate *coordinates, size_t coordinate_count,
                                     const uint16_t *glyphs, size_t glyph_count,
                                     const uint32_t *options, size_t option_count,
                                     uint8_t *out, size_t out_size,
                                     uint16_t *cids, size_t cid_count,
                                     uint32_t *widths, size_t width_count,
                                     subsetter_sizes *sizes);

static inline uint32_t subsetter_embed_at(const uint8_t *font, size_t font_size, uint32_t index,
                                          const subsetter_coordinate *coordinates, size_t coordinate_count,
                                          const uint16_t *glyphs, size_t glyph_count,
                                          const subsetter_options *options,
                                          uint8_t *out, size_t out_size,
                                          uint16_t *cids, size_t cid_count,
                                          uint32_t *widths, size_t width_count,
                                          subsetter_sizes *sizes)
{
    return subsetter_embed_at_by_words(font, font_size, index, coordinates, coordinate_count, glyphs, glyph_count,
                                       subsetter_option_words(options), subsetter_option_count(options), out, out_size, cids,
                                       cid_count, widths, width_count, sizes);
}

/* ---- in memory of the library's: one call, and no size to be asked first */

/* What a `make` call hands over: lists that the caller only reads, and gives back by `subsetter_free`. Where a size or a
 * count is 0, its pointer says nothing. */
typedef struct subsetter_made {
    /* The subset, in bytes. */
    const uint8_t *font;
    size_t font_size;
    /* The CID of each given glyph, and the width of each CID, as `subsetter_embed` gives them. */
    const uint16_t *cids;
    size_t cid_count;
    const uint32_t *widths;
    size_t width_count;
} subsetter_made;

/* The subset of a font, in memory that the library takes by malloc.
 *   0: `made->font` is the subset, `made->font_size` its size in bytes; the two counts are 0.
 *   1 to 7, 10: the size and the counts are 0, and nothing is to be freed.
 * `made` is written by each call and must not be null; what it held before isn't freed.
 */
uint32_t subsetter_make_subset_by_words(const uint8_t *font, size_t font_size, uint32_t index,
                                        const uint16_t *glyphs, size_t glyph_count,
                                        const uint32_t *options, size_t option_count,
                                        subsetter_made *made);

static inline uint32_t subsetter_make_subset(const uint8_t *font, size_t font_size, uint32_t index,
                                             const uint16_t *glyphs, size_t glyph_count,
                                             const subsetter_options *options, subsetter_made *made)
{
    return subsetter_make_subset_by_words(font, font_size, index, glyphs, glyph_count, subsetter_option_words(options),
                                          subsetter_option_count(options), made);
}

/* The same at coordinates, as `subsetter_subset_at_by_words`. */
uint32_t subsetter_make_subset_at_by_words(const uint8_t *font, size_t font_size, uint32_t index,
                                           const subsetter_coordinate *coordinates, size_t coordinate_count,
                                           const uint16_t *glyphs, size_t glyph_count,
                                           const uint32_t *options, size_t option_count,
                                           subsetter_made *made);

static inline uint32_t subsetter_make_subset_at(const uint8_t *font, size_t font_size, uint32_t index,
                                                const subsetter_coordinate *coordinates, size_t coordinate_count,
                                                const uint16_t *glyphs, size_t glyph_count,
                                                const subsetter_options *options, subsetter_made *made)
{
    return subsetter_make_subset_at_by_words(font, font_size, index, coordinates, coordinate_count, glyphs, glyph_count,
                                             subsetter_option_words(options), subsetter_option_count(options), made);
}

/* The same with CIDs and widths. 2 also where the font has no `hmtx` or no `head`, or 0 units per em. */
uint32_t subsetter_make_embedded_by_words(const uint8_t *font, size_t font_size, uint32_t index,
                                          const uint16_t *glyphs, size_t glyph_count,
                                          const uint32_t *options, size_t option_count,
                                          subsetter_made *made);

static inline uint32_t subsetter_make_embedded(const uint8_t *font, size_t font_size, uint32_t index,
                                               const uint16_t *glyphs, size_t glyph_count,
                                               const subsetter_options *options, subsetter_made *made)
{
    return subsetter_make_embedded_by_words(font, font_size, index, glyphs, glyph_count,
                                            subsetter_option_words(options), subsetter_option_count(options), made);
}

/* The same at coordinates, as `subsetter_embed_at_by_words`. */
uint32_t subsetter_make_embedded_at_by_words(const uint8_t *font, size_t font_size, uint32_t index,
                                             const subsetter_coordinate *coordinates, size_t coordinate_count,
                                             const uint16_t *glyphs, size_t glyph_count,
                                             const uint32_t *options, size_t option_count,
                                             subsetter_made *made);

static inline uint32_t subsetter_make_embedded_at(const uint8_t *font, size_t font_size, uint32_t index,
                                                  const subsetter_coordinate *coordinates, size_t coordinate_count,
                                                  const uint16_t *glyphs, size_t glyph_count,
                                                  const subsetter_options *options, subsetter_made *made)
{
    return subsetter_make_embedded_at_by_words(font, font_size, index, coordinates, coordinate_count, glyphs, glyph_count,
                                               subsetter_option_words(options), subsetter_option_count(options), made);
}

/* Gives back what a `make` call handed over, and sets the pointers to null and the sizes to 0, so that it may be called
 * again. Also after a call that failed, or with a null pointer: then it does nothing. */
void subsetter_free(subsetter_made *made);

#ifdef __cplusplus
}
#endif

#endif
