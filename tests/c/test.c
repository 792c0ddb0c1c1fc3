/* Each row of a table by the calls that subset and embed: test [--brief] ROWS
 *
 * In buffers that are exact, larger, too small and null, and in memory of the library; options of all sizes and as words; numbers
 * of which no bit may be lost; and each request for memory refused in turn. --brief is for Valgrind and qemu: fonts that take long are
 * subset once. SUBSETTER_BY_CARGO is for the library of bindings/capi, which asks for memory in another way.
 *
 * Or COUNT damaged fonts with any glyphs, coordinates, options and buffers: test --damaged COUNT ROWS. The last line has a sum over
 * all answers: two libraries, or two processors, that print the same one gave the same answers. */
#include "subsetter.h"

#include "counted.h"

static int is_brief;

/* ---- rows */

enum { MOST = 1024, WORDS = 14 };
/* How many items after each buffer are looked at. */
static size_t behind = 8;

struct row {
    const char *name, *font_name;
    const uint8_t *font;
    const uint16_t *glyphs;
    const subsetter_coordinate *coordinates;
    const uint32_t *list;
    size_t font_size, glyph_count, coordinate_count, list_count;
    subsetter_made wanted;
    uint32_t index, status;
    subsetter_options options;
    int embeds, limits, has_words, varies;
};

struct named_font {
    const char *name;
    const uint8_t *bytes;
    size_t size;
};

static struct row rows[MOST];
static struct named_font fonts[MOST];
static size_t row_count, font_count;

/* The bytes of hexadecimal digits; null for `-`. */
static uint8_t *hex(const char *digits, size_t *size)
{
    uint8_t *bytes = *digits == '-' ? NULL : room(strlen(digits) / 2);
    for (*size = 0; *digits != 0 && *digits != '-'; digits += 2)
        bytes[(*size)++] = (uint8_t)strtoul((const char[]){digits[0], digits[1], 0}, NULL, 16);
    return bytes;
}

/* The numbers of a list as `3,10..12`; null for `-`. */
static uint32_t *numbers(char *list, size_t *count)
{
    uint32_t *found = *list == '-' ? NULL : room(65537 * sizeof *found);
    *count = 0;
    for (char *end = list; *end >= '0' && *end <= '9'; end += *end == ',') {
        uint32_t first = (uint32_t)strtoul(end, &end, 10), last = *end == '.' ? (uint32_t)strtoul(end + 2, &end, 10) : first;
        for (; first <= last; first++)
            found[(*count)++] = first;
    }
    return found;
}

static uint16_t *short_numbers(char *list, size_t *count)
{
    uint32_t *wide = numbers(list, count);
    uint16_t *narrow = wide == NULL ? NULL : room(*count * sizeof *narrow);
    for (size_t i = 0; i < *count; i++)
        narrow[i] = (uint16_t)wide[i];
    __real_free(wide);
    return narrow;
}

/* The coordinates of a list as `wght=42598400`; null for `-`. */
static subsetter_coordinate *coordinates_of(char *list, size_t *count)
{
    *count = 0;
    if (strcmp(list, "-") == 0)
        return NULL;
    subsetter_coordinate *found = room((strlen(list) / 6 + 1) * sizeof *found);
    for (char *at = list; at != NULL; at = *at == ',' ? at + 1 : NULL) {
        subsetter_coordinate *one = &found[(*count)++];
        one->tag = SUBSETTER_TAG(at[0], at[1], at[2], at[3]);
        one->value = (int32_t)strtol(at + 5, &at, 10);
    }
    return found;
}

static uint32_t number(const char *word)
{
    return (uint32_t)strtoul(word, NULL, 10);
}

static void add_row(char **words)
{
    struct row *row = &rows[row_count++];
    const subsetter_options defaults = SUBSETTER_DEFAULT_OPTIONS;
    row->name = words[1];
    row->font_name = words[2];
    for (size_t i = 0; i < font_count; i++)
        if (strcmp(fonts[i].name, words[2]) == 0) {
            row->font = fonts[i].bytes;
            row->font_size = fonts[i].size;
        }
    check(row->font != NULL || row->font_size == 0, "its font is there", row->name);
    row->embeds = strncmp(words[0], "embed", 5) == 0;
    row->limits = strcmp(words[0], "limits") == 0;
    row->varies = strstr(words[0], "_at") != NULL;
    row->has_words = strstr(words[0], "options") != NULL || row->varies;
    row->index = number(words[3]);
    row->glyphs = short_numbers(words[4], &row->glyph_count);
    row->options = defaults;
    int next = 5;
    if (row->varies)
        row->coordinates = coordinates_of(words[next++], &row->coordinate_count);
    if (row->limits || row->has_words) {
        row->options.tokens = number(words[next++]);
        row->options.depth = number(words[next++]);
    }
    if (row->has_words)
        row->options.drop = number(words[next++]);
    if (strstr(words[0], "bounded") != NULL || row->varies)
        row->options.bytes = number(words[next++]);
    row->status = number(words[next++]);
    row->wanted.font = hex(words[next++], &row->wanted.font_size);
    if (row->embeds) {
        row->wanted.cids = short_numbers(words[next++], &row->wanted.cid_count);
        row->wanted.widths = numbers(words[next++], &row->wanted.width_count);
    }
    check(words[next] == NULL, "a row has no more words", row->name);
}

/* The text of a status, by the header and by the library, in a buffer with room, with none, and one byte short. */
static void check_text(uint32_t status, const uint8_t *wanted, size_t size)
{
    uint8_t text[64] = {FILLED};
    size_t length = 99;
    const char *of_header = subsetter_status_text(status);
    check(strlen(of_header) == size && memcmp(of_header, wanted, size) == 0, "the text of the header", of_header);
    check(subsetter_error_text(status, text, size - 1, &length) == 8 && length == size && text[0] == FILLED, "a text too long", of_header);
    check(subsetter_error_text(status, NULL, 0, &length) == 8 && length == size, "no room for a text", of_header);
    text[size] = FILLED;
    check(subsetter_error_text(status, text, sizeof text, &length) == 0 && length == size, "a text", of_header);
    check(memcmp(text, wanted, size) == 0 && text[size] == FILLED, "its bytes", of_header);
}

static void read_line(char *line)
{
    char *words[WORDS + 1] = {0};
    int count = 0;
    for (char *word = strtok(line, " \n"); word != NULL && count < WORDS; word = strtok(NULL, " \n"))
        words[count++] = word;
    if (count == 0 || words[0][0] == '#')
        return;
    if (strcmp(words[0], "font") == 0 && font_count < MOST) {
        struct named_font *font = &fonts[font_count++];
        font->name = words[1];
        font->bytes = hex(words[2], &font->size);
    } else if (strcmp(words[0], "text") == 0) {
        size_t size;
        uint8_t *text = hex(words[2], &size);
        check_text(number(words[1]), text, size);
        for (int i = 0; i < HIGHS; i++)
            check_text(number(words[1]) | HIGH[i], (const uint8_t *)"unknown status", 14);
        __real_free(text);
    } else {
        check(row_count < MOST, "too many rows", words[1]);
        add_row(words);
    }
}

static void read_rows(const char *name)
{
    size_t size;
    char *line = (char *)content(name, &size), *next;
    for (; line != NULL; line = next) {
        next = strchr(line, '\n');
        if (next != NULL)
            *next++ = 0;
        read_line(line);
    }
}

/* ---- calls */

/* Buffers, and what a call left in them. */
struct answer {
    uint8_t *font;
    uint16_t *cids;
    uint32_t *widths;
    size_t room, cid_room, width_room;
    subsetter_sizes sizes;
    uint32_t status;
};

static void *filled(size_t size)
{
    return memset(room(size), FILLED, size);
}

static struct answer prepared(size_t size, size_t cids, size_t widths)
{
    return (struct answer){filled(size + behind), filled(2 * (cids + behind)), filled(4 * (widths + behind)), size, cids, widths, {77, 77, 77}, 0};
}

/* Of what is made: so much more room. */
static struct answer room_for(const subsetter_made *made, size_t more)
{
    return prepared(made->font_size + more, made->cid_count + more, made->width_count + more);
}

static struct answer exact(const struct row *row)
{
    return room_for(&row->wanted, 0);
}

static void give_up(struct answer *a)
{
    __real_free(a->font);
    __real_free(a->cids);
    __real_free(a->widths);
}

#define FONT row->font, row->font_size, row->index
#define PLACE row->coordinates, row->coordinate_count
#define GLYPHS row->glyphs, row->glyph_count
#define ALONE a->font, a->room, &a->sizes.font
#define LIST row->list, row->list_count
#define WHOLE a->font, a->room, a->cids, a->cid_room, a->widths, a->width_room, &a->sizes

/* The call for a row of these four. */
#define OF_ROW(EMBED_AT, EMBED, SUBSET_AT, SUBSET) (row->embeds ? row->varies ? EMBED_AT : EMBED : row->varies ? SUBSET_AT : SUBSET)

/* (a subset has one size) */
static void ended(const struct row *row, struct answer *a, uint32_t status)
{
    if (!row->embeds)
        a->sizes.cids = a->sizes.widths = 0;
    a->status = status;
}

/* By the call that takes these options. */
static void call_with(const struct row *row, const subsetter_options *options, struct answer *a)
{
    ended(row, a, OF_ROW(subsetter_embed_at(FONT, PLACE, GLYPHS, options, WHOLE), subsetter_embed_with_options(FONT, GLYPHS, options, WHOLE),
        subsetter_subset_at(FONT, PLACE, GLYPHS, options, ALONE), subsetter_subset_with_options(FONT, GLYPHS, options, ALONE)));
}

/* By the row's own call. */
static void call(const struct row *row, struct answer *a)
{
    if (row->has_words)
        call_with(row, &row->options, a);
    else if (row->limits)
        ended(row, a, subsetter_subset_with_limits(FONT, GLYPHS, row->options.tokens, (uint8_t)row->options.depth, ALONE));
    else
        ended(row, a, row->embeds ? subsetter_embed(FONT, GLYPHS, WHOLE) : subsetter_subset(FONT, GLYPHS, ALONE));
}

/* In memory of the library. */
static uint32_t make(const struct row *row, const subsetter_options *options, subsetter_made *made)
{
    memset(made, FILLED, sizeof *made);
    return OF_ROW(subsetter_make_embedded_at(FONT, PLACE, GLYPHS, options, made), subsetter_make_embedded(FONT, GLYPHS, options, made),
        subsetter_make_subset_at(FONT, PLACE, GLYPHS, options, made), subsetter_make_subset(FONT, GLYPHS, options, made));
}

/* By the call that takes a list of words. */
static void call_by_words(const struct row *row, struct answer *a)
{
    ended(row, a, OF_ROW(subsetter_embed_at_by_words(FONT, PLACE, GLYPHS, LIST, WHOLE), subsetter_embed_by_words(FONT, GLYPHS, LIST, WHOLE),
        subsetter_subset_at_by_words(FONT, PLACE, GLYPHS, LIST, ALONE), subsetter_subset_by_words(FONT, GLYPHS, LIST, ALONE)));
}

static uint32_t make_by_words(const struct row *row, subsetter_made *made)
{
    memset(made, FILLED, sizeof *made);
    return OF_ROW(subsetter_make_embedded_at_by_words(FONT, PLACE, GLYPHS, LIST, made), subsetter_make_embedded_by_words(FONT, GLYPHS, LIST, made),
        subsetter_make_subset_at_by_words(FONT, PLACE, GLYPHS, LIST, made), subsetter_make_subset_by_words(FONT, GLYPHS, LIST, made));
}

static int all_are_filled(const void *block, size_t from, size_t to)
{
    for (size_t i = from; i < to; i++)
        if (((const uint8_t *)block)[i] != FILLED)
            return 0;
    return 1;
}

/* Nothing is written after these items. */
static int untouched(const struct answer *a, size_t size, size_t cids, size_t widths)
{
    return all_are_filled(a->font, size, a->room + behind) && all_are_filled(a->cids, 2 * cids, 2 * (a->cid_room + behind))
        && all_are_filled(a->widths, 4 * widths, 4 * (a->width_room + behind));
}

static int are_same(const subsetter_made *a, const subsetter_made *b)
{
    return SAME(font, font_size) && SAME(cids, cid_count) && SAME(widths, width_count);
}

static int is_nothing(const subsetter_made *made)
{
    return are_same(made, &(subsetter_made){0});
}

static int has_sizes(const struct answer *a, const subsetter_made *of)
{
    return a->sizes.font == of->font_size && a->sizes.cids == of->cid_count && a->sizes.widths == of->width_count;
}

/* The answer has these lists, and nothing after them. */
static int has(const struct answer *a, const subsetter_made *wanted)
{
    const subsetter_made found = {a->font, a->sizes.font, a->cids, a->sizes.cids, a->widths, a->sizes.widths};
    return are_same(&found, wanted) && untouched(a, wanted->font_size, wanted->cid_count, wanted->width_count);
}

/* The answer is the row's. */
static int is_right(const struct row *row, const struct answer *a)
{
    return a->status == row->status && has(a, &row->wanted);
}

/* The answer is this status, and nothing else. */
static int is_refusal(const struct answer *a, uint32_t status)
{
    return a->status == status && has(a, &(subsetter_made){0});
}

/* ---- a row's own call */

/* In buffers, of which one may be too small: then nothing is written but the sizes. */
static void check_call(const struct row *row, struct answer a)
{
    const subsetter_made *wanted = &row->wanted;
    const int fits = a.room >= wanted->font_size && a.cid_room >= wanted->cid_count && a.width_room >= wanted->width_count;
    long before = held;
    call(row, &a);
    check(held == before, "all memory is given back", row->name);
    check(fits ? is_right(row, &a) : a.status == 8 && has_sizes(&a, wanted), "answer", row->name);
    check(fits || a.font == NULL || untouched(&a, 0, 0, 0), "nothing is written", row->name);
    give_up(&a);
}

static void check_buffers(const struct row *row)
{
    const size_t size = row->wanted.font_size, cids = row->wanted.cid_count, widths = row->wanted.width_count;
    check_call(row, room_for(&row->wanted, 3));
    if (row->status != 0)
        return;
    check_call(row, prepared(size - 1, cids, widths));
    if (cids > 0)
        check_call(row, prepared(size, cids - 1, widths));
    if (widths > 0)
        check_call(row, prepared(size, cids, widths - 1));
    check_call(row, (struct answer){.sizes = {77, 77, 77}});
}

static int is_short(const struct row *row)
{
    return row->glyph_count < 1000 && row->font_size < 100000;
}

/* Whether options can say what the row says: in them 0 is the default. */
static int has_options(const struct row *row)
{
    return !row->limits || (row->options.tokens != 0 && row->options.depth != 0);
}

/* In exact buffers and, by as many requests, in memory of the library; then each request is refused in turn: there is no answer, and status
 * 7. A font that is none, and a face that isn't there, are refused as such. Where the request wants a smaller block the call goes on, and at
 * coordinates it may go on. (Rust's lists ask for a smaller block by a copy: at most two requests may be refused without an error.) */
static void check_memory(const struct row *row)
{
    int met, goes_on = 0, needs_none = row->status == 1 || (row->status == 2 && row->index >> 31);
    refused = 0;
    do {
        struct answer a = exact(row);
        subsetter_made made;
        long before = held;
        requests = 0;
        gave_back = 0;
        call(row, &a);
        const unsigned long once = requests;
        met = refused != 0 && requests >= refused;
        int is_whole = is_right(row, &a), is_clean = is_refusal(&a, 7);
        check(held == before, "all memory is given back", row->name);
        check(is_whole || (met && is_clean && !needs_none), "an exact buffer, or a refused request", row->name);
        goes_on += met && is_whole && row->status == 0;
#ifdef SUBSETTER_BY_CARGO
        check(goes_on <= 2, "how many requests may be refused", row->name);
#else
        check(!met || row->status != 0 || is_clean != gave_back || (row->varies && !gave_back), "which requests may be refused", row->name);
#endif
        give_up(&a);
        if (has_options(row)) {
            requests = 0;
            uint32_t status = make(row, &row->options, &made);
            int is_met = refused != 0 && requests >= refused;
            met |= is_met;
            check(refused != 0 || requests == once, "one subset is made", row->name);
            check((status == row->status && are_same(&made, &row->wanted)) || (is_met && status == 7 && is_nothing(&made) && !needs_none), "made", row->name);
            check(!CAN_REFUSE || held == before + (made.font_size > 0) + (made.cid_count > 0) + (made.width_count > 0), "what is held", row->name);
            for (int turn = 0; turn < 2; turn++) {
                subsetter_free(&made);
                check(held == before && is_nothing(&made) && made.font == NULL && made.cids == NULL && made.widths == NULL, "given back once", row->name);
            }
        }
        refused++;
    } while (met || (refused == 1 && is_short(row)));
    refused = 0;
}

/* ---- options that say the same */

/* Options of each size, with rubbish after them, and none: they are taken where what they leave out is the default, or the size is unknown.
 * A bound of bytes is just met, and passed by one byte. */
static void check_options(const struct row *row)
{
    for (uint32_t size = 0; size < 28; size++) {
        struct answer a = exact(row);
        subsetter_made made;
        struct {
            subsetter_options known;
            uint32_t further;
        } options = {row->options, 0};
        uint32_t *words = &options.known.size, taken = size == 27 ? 4 : size;
        const int is_known = taken >= 4 && taken <= 20 && taken % 4 == 0;
        int is_default = 1;
        for (uint32_t i = 1; i < 5; i++)
            if (4 * (i + 1) > taken) {
                is_default = is_default && words[i] == 0;
                words[i] = 4294967295u;
            }
        words[0] = size == 26 ? 4294967295u : size;
        call_with(row, size == 27 ? NULL : &options.known, &a);
        check(is_known ? is_right(row, &a) || !is_default : is_refusal(&a, 10), "a size of options", row->name);
        check((make(row, size == 27 ? NULL : &options.known, &made) == a.status && has_sizes(&a, &made)) || !is_default, "made by these options", row->name);
        subsetter_free(&made);
        give_up(&a);
    }
    for (uint32_t less = 0; less < 2 && row->status == 0; less++) {
        subsetter_options options = row->options;
        options.bytes = (uint32_t)row->wanted.font_size - less;
        struct answer a = exact(row);
        call_with(row, &options, &a);
        check(less == 0 ? is_right(row, &a) : is_refusal(&a, 5), "a bound of bytes", row->name);
        give_up(&a);
    }
}

/* ---- lists of words, as another binding hands them over */

/* By each call that takes words. The row's font has no metrics, so that it can't be embedded; unknown words are refused first. */
static void check_word_list(const struct row *row, const uint32_t *words, size_t count, uint32_t status)
{
    for (int kind = 0; kind < 4; kind++) {
        struct row other = *row;
        struct answer a = exact(row);
        subsetter_made made;
        other.list = words;
        other.list_count = count;
        other.embeds = kind / 2;
        other.varies = kind % 2;
        const uint32_t wanted = other.embeds && status == 0 ? 2 : status;
        call_by_words(&other, &a);
        check(wanted == 0 ? is_right(row, &a) : is_refusal(&a, wanted), "words", row->name);
        check(make_by_words(&other, &made) == wanted && are_same(&made, wanted == 0 ? &row->wanted : &(subsetter_made){0}), "made by words", row->name);
        subsetter_free(&made);
        give_up(&a);
    }
}

/* Of what is dropped, and of the depth, no bit is lost. */
static void check_unknown(const struct row *row)
{
    enum { DEPTH = 2, DROP };
    for (uint32_t i = 3; i < 600; i++)
        if (i < 32 || i > 255) {
            uint32_t words[5] = {20};
            words[i < 32 ? DROP : DEPTH] = i < 32 ? 1u << i : i;
            check_word_list(row, words, 5, 10);
        }
    for (int i = 0; i < HIGHS; i++)
        check_word_list(row, (const uint32_t[]){20, 0, 5 + HIGH[i], 0, 0}, 5, 10);
}

/* The row has one charstring of one token, and its subset 164 bytes. The first word is the size of all in bytes. */
static void check_words(const struct row *row)
{
    static const struct {
        uint32_t words[70];
        size_t count;
        uint32_t status;
    } lists[] = {
        {{0}, 0, 0}, {{4}, 1, 0}, {{8, 0}, 2, 0}, {{16, 1, 1, 7}, 4, 0}, {{20, 0, 0, 0, 164}, 5, 0},
        {{20, 0, 0, 0, 163}, 5, 5}, {{16, 0, 256, 0}, 4, 10}, {{16, 0, 257, 0}, 4, 10}, {{16, 0, 65537, 0}, 4, 10},
        {{16, 0, 0, 8}, 4, 10}, {{24, 0, 0, 0, 0, 0}, 6, 10}, {{28}, 7, 10}, {{32}, 8, 10}, {{52}, 13, 10}, {{276}, 69, 10},
        {{4, 0}, 2, 10}, {{20}, 1, 10}, {{276}, 5, 10}, {{65556}, 5, 10}, {{16777236}, 5, 10}, {{2147483668u}, 5, 10}, {{5}, 1, 10},
    };
    for (size_t i = 0; i < sizeof lists / sizeof *lists; i++)
        check_word_list(row, lists[i].words, lists[i].count, lists[i].status);
    check_unknown(row);
}

/* ---- damaged fonts */

static uint64_t sum = 14695981039346656037u;

/* A random number below the limit, the same on each platform. */
static uint32_t below(uint32_t limit)
{
    static uint64_t state = 88172645463325253u;
    state ^= state >> 12;
    state ^= state << 25;
    state ^= state >> 27;
    return (uint32_t)((((state * 2685821657736338717u) >> 32) * limit) >> 32);
}

/* True in one of `cases` cases. */
static int once_in(uint32_t cases)
{
    return below(cases) == 0;
}

/* A number at which programs break, or any. */
static uint32_t edge(void)
{
    static const uint32_t edges[] = {0, 1, 2, 3, 4, 127, 128, 255, 256, 32767, 32768, 65535, 65536, 2147483647u, 2147483648u,
        4294967294u, 4294967295u};
    return once_in(4) ? below(UINT32_MAX) : edges[below(sizeof edges / sizeof *edges)];
}

static void add(const void *bytes, size_t size)
{
    for (size_t i = 0; i < size; i++)
        sum = (sum ^ ((const uint8_t *)bytes)[i]) * 1099511628211u;
}

/* A number as its bytes, the lowest first, on each platform. */
static void add_number(uint64_t number)
{
    for (int i = 0; i < 8; i++, number >>= 8)
        add(&(uint8_t){(uint8_t)number}, 1);
}

/* A list in a block of its own; one of no items may be null. */
static void *list_of(size_t count, size_t size)
{
    return count == 0 && once_in(2) ? NULL : filled(count * size);
}

/* A font of the rows, at times cut or longer, with some numbers at which programs break. */
static void damage_font(struct row *row, const struct named_font *source)
{
    size_t size = once_in(30) ? below((uint32_t)source->size + 1) : source->size + (once_in(12) ? below(64) : 0);
    uint8_t *font = list_of(size, 1);
    row->font = font;
    row->font_size = size;
    if (size == 0)
        return;
    memcpy(font, source->bytes, size < source->size ? size : source->size);
    for (uint32_t left = once_in(3) ? 0 : below(4); left > 0; left--) {
        size_t at = below((uint32_t)size);
        uint32_t number = edge(), bytes = 1u << below(3);
        if (once_in(3))
            font[at] ^= (uint8_t)(1u << below(8));
        else for (uint32_t i = 0; i < bytes && at + i < size; i++)
            font[at + i] = (uint8_t)(number >> 8 * (bytes - 1 - i));
    }
}

/* Glyphs, coordinates and words of options: mostly known ones, where the limits keep a call short. */
static void draw_lists(struct row *row)
{
    static const uint32_t tags[] = {SUBSETTER_TAG('w', 'g', 'h', 't'), SUBSETTER_TAG('w', 'd', 't', 'h')};
    const uint32_t most = once_in(6) ? 65536 : 1 + below(3);
    row->glyph_count = below(6);
    uint16_t *glyphs = list_of(row->glyph_count, sizeof *glyphs);
    for (uint32_t i = 0; i < row->glyph_count; i++)
        glyphs[i] = (uint16_t)below(most);
    row->coordinate_count = below(4);
    subsetter_coordinate *place = list_of(row->coordinate_count, sizeof *place);
    for (size_t i = 0; i < row->coordinate_count; i++) {
        place[i].tag = once_in(8) ? edge() : tags[once_in(4)];
        place[i].value = (int32_t)(once_in(3) ? edge() : below(1000u << 16));
    }
    row->list_count = below(once_in(8) ? 7 : 6);
    uint32_t *list = list_of(row->list_count, sizeof *list);
    for (size_t i = 0; i < row->list_count; i++) {
        uint32_t number = below(3000);
        const uint32_t known[] = {(uint32_t)(4 * row->list_count), 1 + number, number % 70, number % 8, number % 3 == 0 ? number : 0, 0};
        list[i] = once_in(60) ? edge() : known[i];
    }
    if (row->list_count > 1 && list[1] > 3000)
        list[1] = 3000;
    row->glyphs = glyphs;
    row->coordinates = place;
    row->list = list;
}

/* A call: what it makes is what the header says for any font, and the same in buffers that are exact, or one byte short. Whether it is accepted. */
static int is_accepted(struct row *row, const struct named_font *source)
{
    subsetter_made made;
    damage_font(row, source);
    draw_lists(row);
    row->index = once_in(6) ? edge() : 0;
    row->embeds = (int)below(2);
    row->varies = (int)below(2);
    const uint32_t status = make_by_words(row, &made);
    const size_t less = status == 0 && once_in(3);
    check(status < 8 || status == SUBSETTER_UNKNOWN_OPTION, "a status that isn't known", row->name);
    check(status == 0 ? made.font_size > 0 : is_nothing(&made), "sizes beside a status", row->name);
    struct answer a = prepared(made.font_size - less, made.cid_count, made.width_count);
    call_by_words(row, &a);
    check(a.status == (less ? 8 : status) && has_sizes(&a, &made), "another status or other sizes in buffers", row->name);
    check(less ? untouched(&a, 0, 0, 0) : has(&a, &made), "another answer there", row->name);
    add_number(status);
    add_number(made.font_size);
    add(made.font, made.font_size);
    for (size_t i = 0; i < made.cid_count; i++)
        add_number(made.cids[i]);
    for (size_t i = 0; i < made.width_count; i++)
        add_number(made.widths[i]);
    subsetter_free(&made);
    give_up(&a);
    __real_free((void *)row->font);
    __real_free((void *)row->glyphs);
    __real_free((void *)row->coordinates);
    __real_free((void *)row->list);
    return status == 0;
}

static int damaged(unsigned long count)
{
    static struct named_font small[MOST];
    size_t small_count = 0, accepted = 0;
    is_counted = 0;
    behind = 0;
    /* (a million tokens, and 262,144 components, take long) */
    for (size_t i = 0; i < font_count; i++)
        if (fonts[i].size <= 8000 && strstr(fonts[i].name, "token") == NULL && strstr(fonts[i].name, "doubled") == NULL)
            small[small_count++] = fonts[i];
    check(small_count >= 100, "the rows have 100 fonts", "damaged");
    for (unsigned long turn = 1; turn <= count && failures == 0; turn++) {
        char name[40];
        struct row row = {.name = name};
        snprintf(name, sizeof name, "damaged: call %lu", turn);
        accepted += is_accepted(&row, &small[below((uint32_t)small_count)]);
    }
    check(accepted >= count / 20, "so few are accepted that the answers aren't tested", "damaged");
    printf("C: %lu damaged fonts, %zu accepted, sum %08lx%08lx, %zu failed\n", count, accepted, (unsigned long)(sum >> 32),
        (unsigned long)(sum & 4294967295u), failures);
    return failures != 0;
}

/* ---- all */

static void check_row(const struct row *row)
{
    if (is_brief && strncmp(row->font_name, "doubled", 7) == 0) {
        check_call(row, exact(row));
        return;
    }
    check_buffers(row);
    check_memory(row);
    if (is_short(row) && has_options(row))
        check_options(row);
}

int main(int argc, char **argv)
{
    is_brief = argc > 2 && strcmp(argv[1], "--brief") == 0;
    if (argc < 2)
        return 2;
    read_rows(argv[argc - 1]);
    if (argc > 3 && strcmp(argv[1], "--damaged") == 0)
        return damaged(strtoul(argv[2], NULL, 10));
    for (const struct row *row = rows; row < rows + row_count; row++) {
        check_row(row);
        if (strcmp(row->name, "sid_keyed") == 0)
            check_words(row);
    }
    for (uint32_t status = 17; status < 300; status++)
        check_text(status, (const uint8_t *)"unknown status", 14);
    check(subsetter_version() == SUBSETTER_VERSION, "the version of the header", "version");
    printf("C: %zu rows, %zu checks, %zu failed\n", row_count, checks, failures);
    return failures != 0 || row_count < 490;
}
