/**
 * Fonts cut down to some of their glyphs, for embedding in PDF: generated from proved sources, as a WebAssembly module.
 *
 *     import { load } from "subsetter-proved";
 *     const subsetter = await load();
 *     const font = subsetter.pdfFont(bytes, subsetter.glyphsOf(bytes, "Hello"));   // .objects(5), .sheet(), .codes, .widths ..
 *     const alone = subsetter.subset(bytes, [36, 68]);
 *
 * `subsetter.d.mts` says what each call takes and returns, and README.md what is proved of it and what is tested.
 */

/**
 * Why a font can't be subset. Its message says it in words and, after a colon, which table or glyph the font shows it by: "malformed
 * font: glyph 60000: the font's glyphs are 0 to 6252".
 */
export class SubsetterError extends Error {}
/** No OpenType font, or one without outlines. */
export class UnknownKind extends SubsetterError {}
/** A table is missing or cut, or there is no such glyph or face. */
export class MalformedFont extends SubsetterError {}
/** The outlines are CFF2, and there are no `coordinates`, or a glyph is an accented character that `endchar` puts together. */
export class Unimplemented extends SubsetterError {}
/** A kept string lies outside its table, or the new `name` would be too large. */
export class SubsetError extends SubsetterError {}
/**
 * The glyphs leave no number for glyph 0, or the new font would be too large; or a real number of a CFF dict has more than
 * 64 characters, or `hhea` counts no metrics.
 */
export class OverflowError extends SubsetterError {}
/** `CFF ` has another version than 1, or a charstring can't be run, or not within the limits. */
export class CFFError extends SubsetterError {}
/** Memory ran out. */
export class OutOfMemory extends SubsetterError {}
/** The font's maker doesn't permit that it is embedded. */
export class NotPermitted extends SubsetterError {}
/** A text has an unpaired surrogate, or more than 256 UTF-16 units; or glyphs are no run of the font and of their text. */
export class InvalidText extends SubsetterError {}
/** The font has no table by which characters have glyphs. */
export class NoCmap extends SubsetterError {}
/** The face has no outlines: `pdfFont` alone throws it. */
export class BitmapsAlone extends UnknownKind {}
/** The font lacks characters of a text; `missing` are their places. */
export class MissingCharacters extends SubsetterError {
    constructor(message, missing = []) {
        super(message);
        this.missing = missing;
    }
}
/** The font of a PdfText would have more than 65,535 codes, code 0 among them, or glyphs: the run is for another one. */
export class Overfull extends OverflowError {}

// The names are strings, since tools that make scripts smaller rename classes.
const NAMES = {
    SubsetterError, UnknownKind, MalformedFont, Unimplemented, SubsetError, OverflowError, CFFError, OutOfMemory, NotPermitted,
    InvalidText, NoCmap, BitmapsAlone, MissingCharacters, Overfull,
};
for (const [name, error] of Object.entries(NAMES)) {
    Object.defineProperty(error.prototype, "name", { value: name, configurable: true, writable: true });
}

/** The errors by their status, from 1 on. */
const ERRORS = [, UnknownKind, MalformedFont, Unimplemented, SubsetError, OverflowError, CFFError, OutOfMemory];
ERRORS[11] = NotPermitted;
ERRORS[12] = InvalidText;
ERRORS[13] = NoCmap;
ERRORS[14] = BitmapsAlone;
ERRORS[15] = Overfull;
ERRORS[16] = RangeError;
const DONE = 0, OVERFLOW = 5, OUT_OF_MEMORY = 7, NOT_PERMITTED = 11, NO_CMAP = 13, INVALID_NUMBERS = 16;
const PAGE = 65536, ALIGNMENT = 16, MEMORY_AT_MOST = 2 ** 31;
const WORD_AT_MOST = 2 ** 32 - 1;
const TOKENS = 1000000, DEPTH = 64;

/** The exports that take a font, by their numbers for `subsetter_explain`. */
const CALLS = ["subset", "subset_at", "embed", "embed_at", "pdf_font", "glyphs_of", "advances"].map((name) => `subsetter_${name}`);

/** The words of a call that it writes: for the font, the CIDs and the widths where the list lies, and its count. */
const MADE = [0, 0, 0, 0, 0, 0];

/** The lists of a font for a PDF, by the bytes of an item, and how many numbers there are after them. */
const PARTS = { program: 1, cids: 2, codes: 2, isSaid: 1, widths: 4, columns: 12, fontName: 1, toUnicode: 1, encoding: 1, encodingName: 1, cidSet: 1, cidToGidMap: 1 };
const NUMBERS = 21;
/** The codes of glyphs in use, and what the parts of a font are. */
const CODES = ["consecutive", "source", "each_text"];
const ROLES = ["font", "cid_font", "descriptor", "program", "to_unicode", "cid_set", "encoding", "cid_to_gid_map"];
/** The kinds of pictures of a glyph, by their bits. */
const KINDS = [
    "colr1", "colr0", "svg", "cbdt17", "cbdt18", "cbdt19", "cbdt", "sbix-png", "sbix-jpg", "sbix-tiff", "sbix-pdf", "sbix-mask", "sbix-dupe", "sbix", "ebdt",
    "outline", "empty",
];
const USAGES = ["unsaid", "installable", "editable", "previewAndPrint", "restricted"];

const aligned = (at) => Math.ceil(at / ALIGNMENT) * ALIGNMENT;

/** Numbers of `size` bytes each, 2 or 4, as the module has them: the lowest byte first. (Those below 0 are two's complements.) */
function listOf(size, numbers) {
    const list = new Uint8Array(size * numbers.length), view = new DataView(list.buffer);
    numbers.forEach((number, i) => (size === 2 ? view.setUint16(2 * i, number, true) : view.setUint32(4 * i, number, true)));
    return list;
}

/** The numbers of such a list in a memory. */
function numbersOf(size, buffer, at, count) {
    const view = new DataView(buffer);
    return Array.from({ length: count }, (_, i) => (size === 2 ? view.getUint16(at + 2 * i, true) : view.getUint32(at + 4 * i, true)));
}

const shown = (value) => (typeof value === "string" ? JSON.stringify(value) : String(value));

/** A whole number from `low` to `high`; else TypeError for what is no number, and RangeError. */
function whole(value, low, high, what) {
    if (typeof value !== "number") {
        throw new TypeError(`${what} must be a number, and not ${kindOf(value)}`);
    }
    if (!Number.isInteger(value) || value < low || value > high) {
        throw new RangeError(`${what} must be a whole number from ${low} to ${high}, and not ${value}`);
    }
    return value;
}

/** The class of an object, by its name. (`instanceof` knows none of another frame.) */
const classOf = (value) => Object.prototype.toString.call(value).slice("[object ".length, -1);

/** Whether a value is an ArrayBuffer, shared or not. */
const isBuffer = (value) => ["ArrayBuffer", "SharedArrayBuffer"].includes(classOf(value));

/** What a value is, as a message has it. */
const kindOf = (value) => (typeof value === "object" && value !== null ? classOf(value) : value === null ? "null" : typeof value);

/** The bytes of an ArrayBuffer or of a view of one; else TypeError. */
function bytesOf(data) {
    if (ArrayBuffer.isView(data)) {
        return new Uint8Array(data.buffer, data.byteOffset, data.byteLength);
    }
    if (isBuffer(data)) {
        return new Uint8Array(data);
    }
    throw new TypeError(`a font must be the bytes of a file, an ArrayBuffer or a view of one (readFileSync(path) and await response.arrayBuffer() have them), and not ${kindOf(data)}`);
}

/** The items of what is no text, each taken by a function; else TypeError. */
function listed(list, wanted, taken) {
    if (typeof list !== "object" || typeof list?.[Symbol.iterator] !== "function") {
        throw new TypeError(`${wanted}, and not ${kindOf(list)}`);
    }
    return Array.from(list, taken);
}

/** Objects, as a list; else TypeError. */
const objectsOf = (list, wanted) => listed(list, wanted, (it) => {
    if (typeof it !== "object" || it === null || Array.isArray(it)) {
        throw new TypeError(`${wanted}, and not of ${kindOf(it)}`);
    }
    return it;
});

/** Glyph numbers, as a list; else TypeError or RangeError. */
const glyphsOf = (glyphs) => listed(glyphs, "glyphs must be an iterable of numbers, as [36, 68] (glyphsOf has those of a text)", (it) =>
    whole(it, 0, 65535, kindOf(it) === "Object" ? "a glyph (.glyph of what glyphsOf answers)" : "a glyph"));

/** The characters of a text as numbers; the library refuses an unpaired surrogate. */
function charactersOf(text) {
    if (typeof text !== "string") {
        throw new TypeError(`a text must be a string, and not ${kindOf(text)}`);
    }
    return Array.from(text, (character) => character.codePointAt(0));
}

/** Glyphs with their texts as the library takes them; else TypeError or RangeError. */
function entriesOf(shown) {
    const wanted = "glyphs with their texts must be an iterable of objects, as [{ glyph: 36, text: \"A\" }] (glyphsOf makes them of a text)";
    const glyphs = [], text = [], ends = [];
    for (const entry of objectsOf(shown, wanted)) {
        if ([entry.glyph, entry.text].includes(undefined)) {
            throw new TypeError(wanted);
        }
        glyphs.push(whole(entry.glyph, 0, 65535, "a glyph"));
        for (const character of charactersOf(entry.text)) {
            text.push(character);
        }
        ends.push(text.length);
    }
    return { glyphs, text, ends };
}

/** Options, if they have no other names than these; else TypeError. */
function named(options, names, what) {
    if (options === undefined) {
        return {};
    }
    if (typeof options !== "object" || options === null || Symbol.iterator in options) {
        throw new TypeError(`${what} must be an object, and not ${kindOf(options)}`);
    }
    for (const name of Object.keys(options)) {
        if (!names.includes(name)) {
            throw new TypeError(`${what} have no ${shown(name)}, but ${names.join(", ")}`);
        }
    }
    return options;
}

/** A choice that is kept unless it is false; else TypeError. */
function kept(value, what) {
    if (value !== undefined && typeof value !== "boolean") {
        throw new TypeError(`${what} must be true or false, and not ${shown(value)}`);
    }
    return value ?? true;
}

/** A value in 65536ths, to the nearest, a half rounded up; one past 32 bits is the nearest one within. */
const fixed = (value) => Math.max(-(2 ** 31), Math.min(Math.round(value * 65536), 2 ** 31 - 1));

/** Coordinates as the library takes them: for each axis its tag and its value. None: undefined. Else TypeError or RangeError. */
function coordinatesOf(coordinates) {
    if (coordinates === undefined) {
        return undefined;
    }
    if (typeof coordinates !== "object" || coordinates === null || Symbol.iterator in coordinates) {
        throw new TypeError("coordinates must be an object of tags with numbers, as { wght: 650 }");
    }
    const words = [];
    for (const [tag, value] of Object.entries(coordinates)) {
        if (!/^[\0-\x7f]{4}$/.test(tag)) {
            throw new RangeError(`the tag of an axis must have four ASCII characters, and not be ${shown(tag)}`);
        }
        if (typeof value !== "number") {
            throw new TypeError(`the value of ${tag} must be a number, and not ${kindOf(value)}`);
        }
        if (!Number.isFinite(value)) {
            throw new RangeError(`the value of ${tag} must be finite, and not ${value}`);
        }
        words.push([...tag].reduce((word, letter) => word * 256 + letter.charCodeAt(0), 0), fixed(value));
    }
    return words;
}

/** The choices of each call. */
const CHOICES = ["limits", "small", "hinting", "names", "glyphNames", "coordinates"];

/** The limits, what is dropped and the coordinates of the options. */
function choicesOf({ limits, small = false, hinting, names, glyphNames, coordinates }) {
    // (`bytes` is the older name of `mostBytes`)
    const { tokens = TOKENS, depth = DEPTH, bytes, mostBytes = bytes } = named(limits, ["tokens", "depth", "mostBytes", "bytes"], "limits");
    const dropped = (kept(hinting, "hinting") ? 0 : 1) | (kept(names, "names") ? 0 : 2) | (kept(glyphNames, "glyphNames") ? 0 : 4);
    return {
        tokens: whole(tokens, 1, WORD_AT_MOST, "tokens"),
        depth: whole(depth, 1, 255, "depth"),
        bytes: mostBytes === undefined ? 0 : whole(mostBytes, 1, WORD_AT_MOST, "mostBytes"),
        drop: kept(small, "small") ? 7 : dropped,
        coordinates: coordinatesOf(coordinates),
    };
}

/** The number of a choice among names, or older names of these; else TypeError or RangeError. */
function oneOf(value, names, what, older = {}) {
    if (value === undefined) {
        return 0;
    }
    const wanted = `${what} must be one of ${names.join(", ")}, and not `;
    if (typeof value !== "string") {
        throw new TypeError(wanted + kindOf(value));
    }
    const name = Object.hasOwn(older, value) ? older[value] : value;
    if (!names.includes(name)) {
        throw new RangeError(wanted + shown(value));
    }
    return names.indexOf(name);
}

/** The two words of a tag; 0 and 0 for none. Else TypeError or RangeError. */
function tagOf(tag) {
    if (tag === undefined) {
        return [0, 0];
    }
    if (typeof tag !== "string") {
        throw new TypeError(`a tag must be a string, and not ${kindOf(tag)}`);
    }
    if (!/^[A-Z]{6}$/.test(tag)) {
        throw new RangeError(`a tag must have six capitals, and not be ${shown(tag)}`);
    }
    return [tag.slice(0, 3), tag.slice(3)].map((three) => [...three].reduce((word, letter) => word * 256 + letter.charCodeAt(0), 0));
}

/** The number of a kind of codes. */
const codesOf = (codes) => oneOf(codes, CODES, "codes", { eachText: "each_text" });

/** The choices of a font for a PDF. */
const PDF_CHOICES = ["limits", "small", "hinting", "coordinates", "program", "codes", "vertical", "bounds", "cidSet", "tag", "rights"];

/** What a glyph of a run may have besides its text, by the names of a caller's items and of harfbuzzjs. */
const ITEM = ["xAdvance", "yAdvance", "xOffset", "yOffset"], SHAPED = ["ax", "ay", "dx", "dy"];
const DIRECTIONS = ["ltr", "rtl", "ttb"];

/** The places of a glyph: whole numbers of 32 bits, 0 where one isn't said. */
const placesOf = (it, names) => names.map((name) => whole(it[name] ?? 0, -(2 ** 31), 2 ** 31 - 1, name));

/** Calls, and adds what is wrong with the text to the message of InvalidText, or what is to that of another error. */
function explained(call, fault, kind = InvalidText) {
    try {
        return call();
    } catch (error) {
        const why = error instanceof kind && fault();
        if (why) {
            error.message += `: ${why}`;
        }
        throw error;
    }
}

/** What is wrong with characters or UTF-16 units that are no text. */
function surrogateOf(characters) {
    const found = characters.find((it) => it >= 0xd800 && it < 0xe000);
    return found && `U+${found.toString(16).toUpperCase()} is an unpaired surrogate`;
}

/** How many UTF-16 units characters have. */
const unitsOf = (characters) => characters.reduce((sum, it) => sum + (it > 0xffff ? 2 : 1), 0);

/** What is wrong with entries: a text that is too long, where it isn't a surrogate. */
function faultOf({ text, ends }) {
    const isLong = ends.some((end, i) => unitsOf(text.slice(ends[i - 1] ?? 0, end)) > 256);
    return surrogateOf(text) ?? (isLong ? "a text has more than 256 UTF-16 units" : "");
}

/** That entries are too many for their codes. */
function excessOf({ glyphs, text, ends }, codes) {
    const what = codes === CODES.indexOf("each_text") ? "pairs of a glyph and a text" : "glyphs";
    const keys = glyphs.map((glyph, i) => glyph && (what === "glyphs" ? glyph : [glyph, ...text.slice(ends[i - 1] ?? 0, ends[i])].join()));
    const count = new Set(keys.filter(Boolean)).size;
    return count > 65534 ? `${count} ${what}, and at most 65534 besides glyph 0` : "";
}

/** Why a run isn't laid out, of clusters whose texts have so many UTF-16 units. */
const unlaid = (units) =>
    units.some((it) => it > 16382) ? "a text that needs an ActualText has more than 16382 UTF-16 units" : "a glyph or the pen is further away than 32 bits count";

/** What is wrong with cluster numbers of a text, or with a run of them. */
function clusterFaultOf(text, clusters, direction) {
    const begins = new Set();
    let size = 0;
    for (const character of text) {
        begins.add(size);
        size += character.length;
    }
    const wrong = clusters.find((it) => !begins.has(it));
    if (wrong !== undefined) {
        return `cluster ${wrong} isn't where a character begins in a text of ${size} units`;
    }
    const at = clusters.findIndex((it, i) => (direction === "rtl" ? it > clusters[i - 1] : it < clusters[i - 1]));
    if (at >= 0) {
        return `cluster ${clusters[at]} comes after cluster ${clusters[at - 1]}, and direction is ${direction}`;
    }
    const places = [...clusters, size].sort((one, other) => one - other);
    return unlaid(places.slice(1).map((it, i) => it - places[i]));
}

const noGlyph = (glyph, count) => `glyph ${glyph}: ${count > 0 ? `the font's glyphs are 0 to ${count - 1}` : "the font has no glyph"}`;

/** The same, and the further words of the options for a PDF. */
function pdfChoicesOf(options) {
    const { limits, small, hinting, coordinates, program, codes, vertical = false, bounds, cidSet = false, tag, rights } = options;
    const chosen = choicesOf({ limits, small, hinting, coordinates });
    const further = [
        oneOf(program, ["smallest", "opentype"], "program"),
        codesOf(codes),
        kept(vertical, "vertical") ? 1 : 0,
        oneOf(bounds, ["font", "kept"], "bounds"),
        kept(cidSet, "cidSet") ? 1 : 0,
        oneOf(rights, ["from_font", "held"], "rights", { asSaid: "from_font" }),
        ...tagOf(tag),
    ];
    return { ...chosen, further };
}

const indexOf = ({ index = 0 }) => whole(index, 0, WORD_AT_MOST, "index");

/** The lists of a text, and their words, by the places of the lists. */
function listsOfText({ unitsPerEm, metrics, inked, advances, partable, mostParts, isStill }, { pairs, own, parts }) {
    const sizes = [8, 1, 2, 1, 12, 8, 12], lists = [metrics, inked, advances, partable, pairs, own, parts];
    const counted = (...places) => {
        const words = lists.flatMap((list, i) => [places[i], list.length / sizes[i]]);
        return [unitsPerEm, ...words.slice(0, 8), mostParts, isStill, ...words.slice(8)];
    };
    return { lists, counted };
}

/**
 * An instance of the module. Its memory holds the module's own data, then the fonts, and after them what one call needs:
 * its arguments, and the heap, which begins anew with each call.
 */
class Library {
    #module;
    #exports;
    /** Whether a call didn't come back: it left the instance's stack where it was. */
    #isSpoilt = false;
    /** Where the fonts lie, by address. */
    #places = [];
    /** What the statuses say. They are asked at once, as later there may be no memory for it. */
    #texts;
    version;

    constructor(module, instance) {
        this.#module = module;
        this.#exports = instance.exports;
        this.#texts = ERRORS.map((_, status) => this.#text(status));
        this.#texts[INVALID_NUMBERS] = "numbers of objects must be distinct and above 0, and as many as there are parts (partCount)";
        const version = instance.exports.subsetter_version();
        this.version = `${version >>> 24}.${(version >> 16) & 255}.${(version >> 8) & 255}`;
    }

    /** Makes the memory of an instance `end` bytes large, if it isn't. */
    #reach(memory, end) {
        const pages = Math.ceil(end / PAGE) - memory.buffer.byteLength / PAGE;
        if (pages <= 0) {
            return;
        }
        try {
            memory.grow(pages);
        } catch {
            throw new OutOfMemory("out of memory");
        }
    }

    get #base() {
        return aligned(this.#exports.__heap_base.value);
    }

    /** Where the last font ends. */
    get #end() {
        const last = this.#places.at(-1);
        return last ? aligned(last.at + last.size) : this.#base;
    }

    /** The exports of an instance that can be called: a new one with the same fonts, where a call didn't come back. */
    #sound() {
        if (this.#isSpoilt) {
            let fresh;
            try {
                fresh = new WebAssembly.Instance(this.#module, {}).exports;
            } catch {
                throw new OutOfMemory("out of memory");
            }
            this.#reach(fresh.memory, this.#end);
            const old = new Uint8Array(this.#exports.memory.buffer, this.#base, this.#end - this.#base);
            new Uint8Array(fresh.memory.buffer).set(old, this.#base);
            this.#exports = fresh;
            this.#isSpoilt = false;
        }
        return this.#exports;
    }

    /** Puts a font into the memory: its place, which is taken until it is released. */
    hold(bytes) {
        const { memory } = this.#sound();
        const size = bytes.byteLength;
        // The first gap that is large enough, or the end.
        let at = this.#base, i = 0;
        for (; i < this.#places.length && this.#places[i].at < at + size; i++) {
            at = aligned(this.#places[i].at + this.#places[i].size);
        }
        if (at + size > MEMORY_AT_MOST) {
            throw new OutOfMemory("out of memory");
        }
        this.#reach(memory, at + size);
        new Uint8Array(memory.buffer, at, size).set(bytes);
        const place = { at, size };
        this.#places.splice(i, 0, place);
        return place;
    }

    release(place) {
        this.#places = this.#places.filter((it) => it !== place);
    }

    /**
     * Calls `name` on a struct of words of 32 bits, which is after the fonts and these lists: its status, and the
     * struct afterwards. `words` gives the words by where the lists lie; `first` are the arguments before the struct.
     */
    #call(name, lists, words, ...first) {
        const exports = this.#sound();
        let end = this.#end;
        const places = lists.map((list) => {
            const at = end;
            end = aligned(at + list.byteLength);
            return at;
        });
        const struct = listOf(4, words(...places)), at = end;
        end = aligned(at + struct.byteLength);
        if (end > MEMORY_AT_MOST) {
            throw new OutOfMemory("out of memory");
        }
        this.#reach(exports.memory, end);
        const all = new Uint8Array(exports.memory.buffer);
        places.forEach((place, i) => all.set(lists[i], place));
        all.set(struct, at);
        let status;
        try {
            // (what an earlier call handed over is forgotten with all else, and needn't be freed)
            exports.heap_start(end);
            status = exports[name](...first, at);
        } catch (error) {
            this.#isSpoilt = true;
            throw error;
        }
        // (it may be another buffer now)
        const { buffer } = exports.memory;
        return { status, buffer, words: numbersOf(4, buffer, at, struct.byteLength / 4) };
    }

    #text(status) {
        const { buffer, words: [at, length] } = this.#call("subsetter_error_text", [], () => [0, 0], status);
        return String.fromCharCode(...new Uint8Array(buffer, at, length));
    }

    /** Throws the error of a status. `asked` are the name of a call on a font, and what it was given, by which the font shows why. */
    #check(status, ...asked) {
        if (status !== DONE) {
            const reason = asked.length > 0 && status !== OUT_OF_MEMORY ? this.#reason(status, ...asked) : "";
            throw new (ERRORS[status] ?? SubsetterError)((this.#texts[status] ?? `status ${status}`) + reason);
        }
    }

    /** What a font that is held here shows of why a call was refused, or which limits there were; nothing where memory is refused. */
    #reason(status, name, font, index, glyphs = [], { tokens = TOKENS, depth = DEPTH, bytes = 0, drop = 0, coordinates = [] } = {}) {
        const isOfText = name === "subsetter_text_font", call = CALLS.indexOf(isOfText ? "subsetter_pdf_font" : name);
        const given = (coordinatesAt, glyphsAt) =>
            [call, status, font.at, font.size, index, coordinatesAt, coordinates.length / 2, glyphsAt, glyphs.length, tokens, depth, bytes, drop, 0, 0];
        try {
            const { status: done, buffer, words } = this.#call("subsetter_explain", [listOf(4, coordinates), listOf(2, glyphs)], given);
            const [at, length] = words.slice(-2);
            if (done === DONE && length > 0) {
                const found = new TextDecoder().decode(new Uint8Array(buffer.slice(at, at + length)));
                const isWithout = found.startsWith("CFF2: its outlines") && /_(subset|embed)$/.test(name);
                return `: ${found}${status === NOT_PERMITTED ? `: if you hold the rights, rights: "held"${isOfText ? " of new PdfText" : ""}` : isWithout ? ": coordinates: {} is the default" : ""}`;
            }
            return status === OVERFLOW && tokens !== TOKENS ? `: tokens is ${tokens}` : "";
        } catch {
            return "";
        }
    }

    /** What the call `name` makes of a font that is held here: its three lists, as copies. */
    make(name, font, index, glyphs, { tokens, depth, bytes, drop, coordinates = [] }) {
        const lists = [listOf(2, glyphs), listOf(4, coordinates)];
        // (a coordinate is two numbers)
        const given = (glyphsAt, coordinatesAt) =>
            [font.at, font.size, index, glyphsAt, glyphs.length, coordinatesAt, coordinates.length / 2, tokens, depth, bytes, drop];
        const { status, buffer, words } = this.#call(name, lists, (...places) => [...given(...places), ...MADE]);
        this.#check(status, name, font, index, glyphs, { tokens, depth, bytes, drop, coordinates });
        const [at, size, cidsAt, cidCount, widthsAt, widthCount] = words.slice(-MADE.length);
        return {
            font: new Uint8Array(buffer.slice(at, at + size)),
            cids: numbersOf(2, buffer, cidsAt, cidCount),
            widths: numbersOf(4, buffer, widthsAt, widthCount),
        };
    }

    subset(font, index, glyphs, choices) {
        const name = choices.coordinates ? "subsetter_subset_at" : "subsetter_subset";
        return this.make(name, font, index, glyphs, choices).font;
    }

    embed(font, index, glyphs, choices) {
        const name = choices.coordinates ? "subsetter_embed_at" : "subsetter_embed";
        return this.make(name, font, index, glyphs, choices);
    }

    /** The entries of characters by a font that is held here, each a glyph with two places, and the places of what it lacks. */
    readText(font, index, text) {
        const given = (at) => [font.at, font.size, index, at, text.length, 0, 0, 0, 0];
        const { status, buffer, words } = this.#call("subsetter_read_text", [listOf(4, text)], given);
        explained(() => this.#check(status, "subsetter_glyphs_of", font, index), () => surrogateOf(text));
        const [entriesAt, entryCount, missingAt, missingCount] = words.slice(-4);
        const entries = numbersOf(4, buffer, entriesAt, 3 * entryCount), missing = numbersOf(4, buffer, missingAt, missingCount);
        return { entries, missing, why: missingCount > 0 ? this.#reason(NO_CMAP, "subsetter_glyphs_of", font, index) : "" };
    }

    /** A font for a PDF of one that is held here. */
    pdfFont(font, index, entries, choices) {
        const { glyphs, text, ends } = entries, lists = [listOf(2, glyphs), listOf(4, text), listOf(4, ends)];
        const counted = (glyphsAt, textAt, endsAt) => [glyphsAt, glyphs.length, textAt, text.length, endsAt, ends.length];
        const make = () => this.#pdfFont("subsetter_pdf_font", font, index, lists, counted, glyphs, entries, choices);
        return explained(() => explained(make, () => faultOf(entries)), () => excessOf(entries, choices.further[1]), OverflowError);
    }

    /** The same of the codes of a text, with what it needs of the font. */
    textFont(font, index, needs, kept, choices) {
        const count = needs.metrics.length / 8, none = { glyphs: [], text: [], ends: [] };
        const drawn = numbersOf(4, kept.pairs.buffer, 0, kept.pairs.length / 4).filter((it, i) => i % 3 === 1 && it < count);
        const { lists, counted } = listsOfText(needs, kept);
        return this.#pdfFont("subsetter_text_font", font, index, lists, counted, [...new Set(drawn)], none, choices);
    }

    #pdfFont(name, font, index, lists, counted, glyphs, entries, { tokens, depth, bytes, drop, coordinates = [], further }) {
        const given = (coordinatesAt, ...places) =>
            [font.at, font.size, index, coordinatesAt, coordinates.length / 2, ...counted(...places), tokens, depth, bytes, drop, ...further];
        const parts = Object.entries(PARTS), room = Array(2 * parts.length + NUMBERS + 5).fill(0);
        const { status, buffer, words } = this.#call(name, [listOf(4, coordinates), ...lists], (...places) => [...given(...places), ...room]);
        this.#check(status, name, font, index, glyphs, { tokens, depth, bytes, coordinates });
        const made = words.slice(-room.length), raw = {};
        const [unitsPerEm, exactAt, exactCount, axesAt, axisCount] = made.splice(-5);
        const axes = numbersOf(4, buffer, axesAt, axisCount).map((it) => String.fromCharCode(it >>> 24, (it >> 16) & 255, (it >> 8) & 255, it & 255));
        const added = { unitsPerEm, exactWidths: numbersOf(2, buffer, exactAt, exactCount), unknownAxes: axes };
        parts.forEach(([name, size], i) => {
            const [at, count] = made.slice(2 * i);
            raw[name] = { count, bytes: new Uint8Array(buffer.slice(at, at + size * count)) };
        });
        // (the highest bit is that of an empty outline)
        const isUnseen = (bits) => bits > 2 ** KINDS.indexOf("empty");
        added.unseen = this.#kindBits(font, index, entries.glyphs).flatMap((bits, place) => (isUnseen(bits) ? [place] : []));
        return new PdfFont(this, raw, made.slice(2 * parts.length), entries, added);
    }

    /** What runs of text need of a font that is held here. */
    newText(font, index, { tokens, depth, bytes, drop, coordinates = [], further }, makesOwn) {
        const given = (at) => [font.at, font.size, index, at, coordinates.length / 2, tokens, depth, bytes, drop, ...further, makesOwn, ...Array(11).fill(0)];
        const { status, buffer, words } = this.#call("subsetter_new_text", [listOf(4, coordinates)], given);
        this.#check(status, "subsetter_advances", font, index, [], { tokens, coordinates });
        const [unitsPerEm, metricsAt, metrics, inkedAt, inked, advancesAt, advances, partableAt, partable, mostParts, isStill] = words.slice(-11);
        const list = (at, size) => new Uint8Array(buffer.slice(at, at + size));
        return {
            unitsPerEm, metrics: list(metricsAt, 8 * metrics), inked: list(inkedAt, inked),
            advances: list(advancesAt, 2 * advances), partable: list(partableAt, partable), mostParts, isStill,
        };
    }

    /** What shows a run, by `name`: the operators, and what the text keeps then. `glyphSize` and `unitSize` are in bytes. */
    show(name, [glyphSize, unitSize], needs, kept, glyphs, text, ...choices) {
        const { lists, counted } = listsOfText(needs, kept);
        const given = (...places) => [
            ...counted(...places), places.at(-2), glyphs.length / glyphSize, places.at(-1), text.length / unitSize, ...choices, 0, 0,
        ];
        const { status, buffer, words } = this.#call(name, [...lists, glyphs, text], given);
        this.#check(status);
        const list = (at, size) => new Uint8Array(buffer.slice(at, at + size));
        const [pairsAt, pairs, ownAt, own, partsAt, parts] = words.slice(11);
        return {
            operators: list(...words.slice(-2)),
            kept: { pairs: list(pairsAt, 12 * pairs), own: list(ownAt, 8 * own), parts: list(partsAt, 12 * parts) },
        };
    }

    /** The codes of entries, without a font. */
    codesOf(entries, kind) {
        const { glyphs, text, ends } = entries;
        const lists = [listOf(2, glyphs), listOf(4, text), listOf(4, ends)];
        const given = (glyphsAt, textAt, endsAt) => [glyphsAt, glyphs.length, textAt, text.length, endsAt, ends.length, kind, 0, 0];
        const { status, buffer, words } = this.#call("subsetter_codes_of", lists, given);
        explained(() => explained(() => this.#check(status), () => surrogateOf(text)), () => excessOf(entries, kind), OverflowError);
        const [at, count] = words.slice(-2);
        return numbersOf(2, buffer, at, count);
    }

    /** The advances of glyphs of a font that is held here. */
    advances(font, index, glyphs, { tokens, coordinates = [] }) {
        const lists = [listOf(4, coordinates), listOf(2, glyphs)];
        const given = (coordinatesAt, glyphsAt) =>
            [font.at, font.size, index, coordinatesAt, coordinates.length / 2, glyphsAt, glyphs.length, tokens, 0, 0, 0, 0, 0];
        const { status, buffer, words } = this.#call("subsetter_advances", lists, given);
        this.#check(status, "subsetter_advances", font, index, glyphs, { tokens, coordinates });
        const [unitsPerEm, widthsAt, widthCount, heightsAt, heightCount] = words.slice(-5);
        return { unitsPerEm, widths: numbersOf(2, buffer, widthsAt, widthCount), heights: numbersOf(2, buffer, heightsAt, heightCount) };
    }

    /** The kinds of pictures of glyphs of a font that is held here. */
    kindsOf(font, index, glyphs) {
        return this.#kindBits(font, index, glyphs).map((found) => KINDS.filter((_, bit) => (found >>> bit) & 1));
    }

    #kindBits(font, index, glyphs) {
        const given = (glyphsAt) => [font.at, font.size, index, glyphsAt, glyphs.length, 0, 0];
        const { status, buffer, words } = this.#call("subsetter_glyph_kinds", [listOf(2, glyphs)], given);
        this.#check(status, "subsetter_glyphs_of", font, index);
        const [at, count] = words.slice(-2);
        return numbersOf(4, buffer, at, count);
    }

    /** The lists of such a font, and their words. */
    #lists(raw) {
        const parts = Object.values(raw);
        return { lists: parts.map(({ bytes }) => bytes), counted: (places) => parts.flatMap(({ count }, i) => [places[i], count]) };
    }

    /** The parts of such a font, with these numbers. */
    parts(raw, numbers, given) {
        const { lists, counted } = this.#lists(raw);
        const call = (...places) => [...counted(places), ...numbers, places.at(-1), given.length, 0, 0];
        const { status, buffer, words } = this.#call("subsetter_parts", [...lists, listOf(4, given)], call);
        this.#check(status);
        const [at, count] = words.slice(-2), bytes = (from, size) => new Uint8Array(buffer.slice(from, from + size));
        return Array.from({ length: count }, (_, i) => {
            const [role, number, entriesAt, size, stringsAt, ends, isStream, streamAt, length] = numbersOf(4, buffer, at + 36 * i, 9);
            const places = numbersOf(4, buffer, stringsAt, ends), strings = [];
            for (let k = 0; k < ends; k += 2) strings.push([places[k], places[k + 1]]);
            return new Part(ROLES[role], number, bytes(entriesAt, size), strings, isStream ? bytes(streamAt, length) : undefined);
        });
    }

    /** What the call `name` writes of such a font. */
    write(name, raw, numbers, number, { glyphs, text, ends }) {
        const { lists, counted } = this.#lists(raw), all = [...lists, listOf(2, glyphs), listOf(4, text), listOf(4, ends)];
        const given = (...places) => {
            const [glyphsAt, textAt, endsAt] = places.slice(lists.length);
            return [...counted(places), ...numbers, number, glyphsAt, glyphs.length, textAt, text.length, endsAt, ends.length, 0, 0, 0, 0];
        };
        const { status, buffer, words } = this.#call(name, all, given);
        this.#check(status);
        const [at, size, offsetsAt, offsetCount] = words.slice(-4);
        return { bytes: new Uint8Array(buffer.slice(at, at + size)), offsets: numbersOf(4, buffer, offsetsAt, offsetCount) };
    }

    /** A file of runs and such a font. */
    textSheet(raw, numbers, runs) {
        const { lists, counted } = this.#lists(raw);
        let size = 0;
        const ends = runs.map((it) => (size += it.length)), operators = new Uint8Array(size);
        runs.forEach((it, i) => operators.set(it, ends[i] - it.length));
        const all = [...lists, operators, listOf(4, ends), listOf(4, runs.map((it) => Math.abs(it.advance)))];
        const given = (...places) => {
            const [operatorsAt, endsAt, advancesAt] = places.slice(lists.length);
            return [...counted(places), ...numbers, operatorsAt, size, endsAt, ends.length, advancesAt, ends.length, 0, 0];
        };
        const { status, buffer, words } = this.#call("subsetter_text_sheet", all, given);
        this.#check(status);
        const [at, length] = words.slice(-2);
        return new Uint8Array(buffer.slice(at, at + length));
    }
}

const latin1 = (text) => Uint8Array.from(text, (it) => it.charCodeAt(0));

/** Bytes, one after the other. */
function joined(...lists) {
    const all = new Uint8Array(lists.reduce((size, list) => size + list.length, 0));
    lists.reduce((at, list) => (all.set(list, at), at + list.length), 0);
    return all;
}

/** An object of a PDF, as data. */
class Part {
    constructor(role, number, entries, strings, stream) {
        this.role = role;
        this.number = number;
        this.entries = entries;
        this.strings = strings;
        if (stream) {
            this.stream = stream;
        }
    }

    get value() {
        const { entries, stream } = this;
        return stream ? joined(latin1("<< "), entries, latin1(`/Length ${stream.length} >>\nstream\n`), stream, latin1("\nendstream")) : joined(latin1("<< "), entries, latin1(">>"));
    }
}

/** The sheet of runs of a font, which is for `PdfText` alone. */
const SHEET = Symbol("sheet");
/** The fonts of texts. */
const OF_TEXTS = new WeakSet();
/** Of each run the text that made it, and its size. */
const RUNS = new WeakMap();

/** All that a PDF has of a font. */
class PdfFont {
    #library;
    #raw;
    #numbers;
    #entries;

    constructor(library, raw, numbers, entries, added) {
        Object.assign(this, added);
        this.partCount = 5 + [raw.cidToGidMap, raw.cidSet, raw.encoding].filter(({ count }) => count).length;
        this.#library = library;
        this.#raw = raw;
        this.#numbers = numbers;
        this.#entries = entries;
        const text = ({ bytes }) => String.fromCharCode(...bytes);
        const list = (size, { bytes, count }) => numbersOf(size, bytes.buffer, 0, count);
        const [kind, isVertical, defaultWidth, y, advance, flags, ...rest] = numbers;
        const [left, lower, right, upper, angle, ascent, descent, capHeight, hasXHeight, xHeight, stemV, fontWeight, usage, subsetting, outlines] = rest.map((it) => it | 0);
        this.program = raw.program.bytes.slice();
        this.kind = ["TrueType", "CFF", "OpenType"][kind];
        this.glyphCount = raw.widths.count;
        this.cids = list(2, raw.cids);
        this.codes = list(2, raw.codes);
        this.textIsMapped = Array.from(raw.isSaid.bytes, (it) => it === 1);
        this.widths = list(4, raw.widths);
        this.defaultWidth = defaultWidth;
        if (isVertical) {
            const words = numbersOf(4, raw.columns.bytes.buffer, 0, 3 * raw.columns.count).map((it) => it | 0);
            this.columns = Array.from({ length: raw.columns.count }, (_, i) => ({ advance: words[3 * i], x: words[3 * i + 1], y: words[3 * i + 2] }));
            this.defaultColumn = [y | 0, advance | 0];
        }
        this.descriptor = {
            fontName: text(raw.fontName), flags, bounds: [left, lower, right, upper], italicAngle: angle / 1000, ascent, descent,
            capHeight, ...(hasXHeight ? { xHeight } : {}), stemV, fontWeight,
        };
        this.permission = { usage: USAGES[usage], subsetting: subsetting === 1, outlines: outlines === 1 };
        this.toUnicode = raw.toUnicode.bytes.slice();
        if (raw.encoding.count) {
            this.encoding = raw.encoding.bytes.slice();
            this.encodingName = text(raw.encodingName);
        }
        if (raw.cidSet.count) {
            this.cidSet = raw.cidSet.bytes.slice();
        }
        if (raw.cidToGidMap.count) {
            this.cidToGidMap = raw.cidToGidMap.bytes.slice();
        }
    }

    /** The older name of `textIsMapped`. */
    get isSaid() {
        return this.textIsMapped;
    }

    close() {
        this.#raw = null;
    }

    #kept() {
        if (!this.#raw) {
            throw new TypeError("the font is closed");
        }
        return this.#raw;
    }

    #written(name, number, entries) {
        return this.#library.write(name, this.#kept(), this.#numbers, number, entries);
    }

    parts(numbers, options) {
        const { pack, filter = "/FlateDecode" } = named(options, ["pack", "filter"], "options");
        if (typeof filter !== "string" || (pack !== undefined && typeof pack !== "function")) {
            throw new TypeError("pack must be a function, and filter a string");
        }
        if (!/^[/[][\x20-\x7e]*$/.test(filter)) {
            throw new RangeError(`filter must be as PDF writes it, as "/FlateDecode", and not ${shown(filter)}`);
        }
        const given = listed(numbers, "numbers of objects must be an iterable of numbers", (it) => whole(it, 1, WORD_AT_MOST, "a number of an object"));
        const counts = () => `${given.length}, of them ${new Set(given).size} distinct, for ${this.partCount}`;
        const parts = explained(() => this.#library.parts(this.#kept(), this.#numbers, given), counts, RangeError);
        for (const part of pack ? parts.filter(({ stream }) => stream) : []) {
            part.entries = joined(part.entries, latin1(`/Filter ${filter} `));
            part.stream = pack(part.stream);
            if (kindOf(part.stream) !== "Uint8Array") {
                throw new TypeError(`pack must return a Uint8Array, and not ${kindOf(part.stream)}`);
            }
        }
        return parts;
    }

    string(codes) {
        const hexadecimal = (it) => whole(it, 0, 65535, "a code").toString(16).toUpperCase().padStart(4, "0");
        return `<${listed(codes, "codes must be an iterable of numbers", hexadecimal).join("")}>`;
    }

    objects(first) {
        const number = whole(first, 1, WORD_AT_MOST, "the first number");
        const write = () => this.#written("subsetter_pdf_objects", number, { glyphs: [], text: [], ends: [] });
        return explained(write, () => `the numbers from ${number} on don't fit 32 bits`, OverflowError);
    }

    sheet(layout) {
        const number = oneOf(layout, ["line", "grid"], "layout");
        if (OF_TEXTS.has(this)) {
            throw new TypeError("the font of a PdfText has no entries: PdfText.sheet shows runs");
        }
        return this.#written("subsetter_pdf_sheet", number, this.#entries).bytes;
    }

    [SHEET](runs) {
        return this.#library.textSheet(this.#kept(), this.#numbers, runs);
    }
}

/** Each character of a text with its glyph. */
function withGlyphs(text, { entries, missing, why }, choice) {
    const places = [0];
    for (const character of text) {
        places.push(places[places.length - 1] + character.length);
    }
    const lacking = missing.map((at) => places[at]);
    if (choice === 1 && lacking.length > 0) {
        const each = [...new Map(lacking.map((at) => [text.codePointAt(at), at]).reverse())].reverse();
        const named = each.slice(0, 20).map(([it, at]) => `U+${it.toString(16).toUpperCase().padStart(4, "0")} at ${at}`);
        throw new MissingCharacters(`missing characters: ${named.join(", ")}${each.length > 20 ? `, and ${each.length - 20} more` : ""}${why}`, lacking);
    }
    const found = Array.from({ length: entries.length / 3 }, (_, i) => {
        const [glyph, start, end] = entries.slice(3 * i, 3 * i + 3);
        return { glyph, text: text.slice(places[start], places[end]) };
    });
    return Object.defineProperty(found, "missing", { value: lacking });
}

/** What is done about characters that a font lacks. */
const missingOf = ({ missing }) => oneOf(missing, ["glyph_0", "error"], "missing");

/** A font in the module's memory. */
class Font {
    #library;
    #index;
    #place;

    constructor(library, bytes, index) {
        this.#library = library;
        this.#index = index;
        this.#place = library.hold(bytes);
    }

    #made(name, glyphs, options) {
        const choices = choicesOf(named(options, CHOICES, "options"));
        return this.#called(name, glyphsOf(glyphs), choices);
    }

    #called(name, ...given) {
        // (looked at last, as a caller's iterator may close the font)
        if (!this.#place) {
            throw new TypeError("the font is closed");
        }
        return this.#library[name](this.#place, this.#index, ...given);
    }

    glyphsOf(text, options) {
        const choice = missingOf(named(options, ["missing"], "options"));
        return withGlyphs(text, this.#called("readText", charactersOf(text)), choice);
    }

    pdfFont(shown, options) {
        const choices = pdfChoicesOf(named(options, PDF_CHOICES, "options"));
        return this.#called("pdfFont", entriesOf(shown), choices);
    }

    advances(glyphs, options) {
        const choices = choicesOf(named(options, ["limits", "coordinates"], "options"));
        return this.#called("advances", glyphsOf(glyphs), choices);
    }

    kindsOf(glyphs) {
        return this.#called("kindsOf", glyphsOf(glyphs));
    }

    subset(glyphs, options) {
        return this.#made("subset", glyphs, options);
    }

    embed(glyphs, options) {
        return this.#made("embed", glyphs, options);
    }

    close() {
        if (this.#place) {
            this.#library.release(this.#place);
            this.#place = null;
        }
    }
}

/** The text of a font in a PDF. */
class PdfText {
    #library;
    #index;
    #place;
    #choices;
    #needs;
    #isVertical;
    #order;
    /** What each code from 1 on draws and says, and the own glyphs among it, as the module has them. */
    #kept = { pairs: new Uint8Array(0), own: new Uint8Array(0), parts: new Uint8Array(0) };

    constructor(library, data, options) {
        const bytes = bytesOf(data), given = named(options, ["index", "limits", "coordinates", "vertical", "rights", "order", "ownGlyphs"], "options");
        const { limits, coordinates, vertical = false, rights, ownGlyphs = true } = given;
        this.#index = indexOf(given);
        this.#choices = { limits, coordinates, vertical, rights };
        this.#order = oneOf(given.order, ["visual", "logical"], "order");
        this.#isVertical = kept(vertical, "vertical");
        const choices = pdfChoicesOf(this.#choices), makesOwn = kept(ownGlyphs, "ownGlyphs") ? 1 : 0;
        this.#library = library;
        this.#place = library.hold(bytes);
        try {
            this.#needs = library.newText(this.#place, this.#index, choices, makesOwn);
        } catch (error) {
            this.close();
            throw error;
        }
        this.unitsPerEm = this.#needs.unitsPerEm;
        // (a caller may change them)
        this.#choices.coordinates = coordinates && { ...coordinates };
        this.#choices.limits = limits && { ...limits };
    }

    #held() {
        if (!this.#place) {
            throw new TypeError("the text is closed");
        }
        return this.#place;
    }

    /** What is wrong with the glyphs of a run, whose last four numbers are their places, or with its characters. */
    #fault(rows, characters, names) {
        const count = this.#needs.metrics.length / 8, across = this.#isVertical ? 0 : 1;
        for (const row of rows) {
            if (row[0] >= count) {
                return noGlyph(row[0], count);
            }
            if (row.at(across - 4) !== 0) {
                return `${names[across]} is ${row.at(across - 4)}, and 0 in ${this.#isVertical ? "vertical" : "horizontal"} text`;
            }
        }
        return surrogateOf(characters);
    }

    #show(name, sizes, glyphs, text, options, fault) {
        const known = this.#isVertical ? DIRECTIONS.slice(2) : DIRECTIONS.slice(0, 2);
        const { direction, size: points = 12 } = named(options, ["direction", "size"], "options");
        const number = DIRECTIONS.indexOf(known[oneOf(direction, known, `direction of ${this.#isVertical ? "vertical" : "horizontal"} text`)]);
        if (typeof points !== "number") {
            throw new TypeError(`size must be a number, and not ${kindOf(points)}`);
        }
        if (!(points >= 0 && points <= WORD_AT_MOST / 1000)) {
            throw new RangeError(`size must be from 0 to ${WORD_AT_MOST / 1000}, and not ${points}`);
        }
        this.#held();
        const lists = [this.#needs, this.#kept, listOf(4, glyphs), listOf(sizes[1], text)];
        const show = () => this.#library.show(name, sizes, ...lists, number, this.#order, Math.round(1000 * points));
        const shown = explained(show, () => fault(DIRECTIONS[number])), { unitsPerEm } = this.#needs;
        this.#kept = shown.kept;
        // (each glyph ends with its advances and its offsets)
        const step = sizes[0] / 4, at = step - (this.#isVertical ? 3 : 4);
        const length = glyphs.reduce((sum, it, i) => (i % step === at ? sum + it : sum), 0);
        RUNS.set(shown.operators, { text: this, points });
        return Object.defineProperty(shown.operators, "advance", { value: Math.floor((2000 * length + unitsPerEm) / (2 * unitsPerEm)) });
    }

    run(items, options) {
        const wanted = "items must be an iterable of objects, as [{ glyph: 5, text: \"fi\" }, { glyph: 7, xAdvance: 0 }]";
        const list = objectsOf(items, wanted), text = [], own = [];
        const rows = list.map((it) => {
            named(it, ["glyph", "text", ...ITEM], "items");
            const glyph = whole(it.glyph, 0, 65535, "a glyph"), start = text.length;
            for (const character of it.text === undefined ? [] : charactersOf(it.text)) {
                text.push(character);
            }
            const row = [glyph, it.text === undefined ? 1 : 0, start, text.length, ...placesOf(it, ITEM)];
            if (it.xAdvance === undefined && it.yAdvance === undefined) {
                own.push({ row, isPlaced: it.yOffset !== undefined });
            }
            return row;
        });
        if (own.length > 0) {
            const { widths, heights } = this.#library.advances(this.#held(), this.#index, own.map(({ row }) => row[0]), pdfChoicesOf(this.#choices));
            // (a font may have more outlines than `maxp` counts; the library refuses such a glyph)
            const view = new DataView(this.#needs.metrics.buffer), { unitsPerEm } = this.#needs;
            const below = (glyph) => (8 * glyph < view.byteLength ? view.getInt32(8 * glyph + 4, true) * unitsPerEm : 0);
            own.forEach(({ row, isPlaced }, i) => {
                row[this.#isVertical ? 5 : 4] = this.#isVertical ? -heights[i] : widths[i];
                // (in a column the glyph's origin is below the pen)
                row[7] = this.#isVertical && !isPlaced ? Math.floor((1000 - 2 * below(row[0])) / 2000) : row[7];
            });
        }
        const unheld = () => unlaid(rows.map(([, , start, end]) => unitsOf(text.slice(start, end))));
        const fault = () => (rows[0]?.[1] ? "the first item continues a cluster, as it has no text" : this.#fault(rows, text, ITEM) ?? unheld());
        return this.#show("subsetter_show_run", [32, 4], rows.flat(), text, options, fault);
    }

    shaped(text, glyphs, options) {
        const wanted = "glyphs must be an iterable of objects with g, cl, ax, ay, dx and dy, as harfbuzzjs has them", characters = charactersOf(text);
        const rows = objectsOf(glyphs, wanted).map((it) => {
            if ([it.g, it.cl, ...SHAPED.map((name) => it[name])].includes(undefined)) {
                throw new TypeError(wanted);
            }
            return [whole(it.g, 0, WORD_AT_MOST, "g"), whole(it.cl, 0, WORD_AT_MOST, "cl"), ...placesOf(it, SHAPED)];
        });
        const units = Array.from({ length: text.length }, (_, i) => text.charCodeAt(i));
        const fault = (direction) => this.#fault(rows, characters, SHAPED) ?? clusterFaultOf(text, rows.map((row) => row[1]), direction);
        return this.#show("subsetter_show_shaped", [24, 2], rows.flat(), units, options, fault);
    }

    advances(glyphs) {
        this.#held();
        const { metrics } = this.#needs, view = new DataView(metrics.buffer), last = metrics.length / 8 - 1;
        return glyphsOf(glyphs).map((glyph) => {
            if (glyph > last) {
                throw new MalformedFont(`malformed font: ${noGlyph(glyph, last + 1)}`);
            }
            return view.getInt32(8 * glyph, true);
        });
    }

    font(options) {
        const chosen = named(options, ["small", "hinting", "bounds", "cidSet", "tag"], "options");
        const choices = pdfChoicesOf({ ...chosen, ...this.#choices });
        const font = this.#library.textFont(this.#held(), this.#index, this.#needs, this.#kept, choices);
        OF_TEXTS.add(font);
        return font;
    }

    sheet(runs, options) {
        const wanted = "runs must be an iterable of what run and shaped return";
        const lines = listed(runs, wanted, (it) => {
            const { text, points } = RUNS.get(it) ?? {};
            if (text !== this) {
                throw new TypeError(text ? "a run is of another PdfText" : wanted);
            }
            if (points !== 36) {
                throw new RangeError(`the size of a run is ${points}, and 36 on a sheet`);
            }
            return it;
        });
        return this.font(options)[SHEET](lines);
    }

    close() {
        if (this.#place) {
            this.#library.release(this.#place);
            this.#place = null;
        }
    }
}

/** The calls of a library, which need no `this`. */
function callsOf(library) {
    /** One call on a font that is put into the memory for it. */
    function called(name, bytes, ...given) {
        const place = library.hold(bytes);
        try {
            return library[name](place, ...given);
        } finally {
            library.release(place);
        }
    }
    function once(name, data, glyphs, options, names = CHOICES) {
        const bytes = bytesOf(data);
        const given = named(options, ["index", ...names], "options");
        const index = indexOf(given), choices = choicesOf(given);
        return called(name, bytes, index, glyphsOf(glyphs), choices);
    }
    function glyphs(data, text, options) {
        const bytes = bytesOf(data), given = named(options, ["index", "missing"], "options");
        const index = indexOf(given), choice = missingOf(given);
        return withGlyphs(text, called("readText", bytes, index, charactersOf(text)), choice);
    }
    function pdfFont(data, shown, options) {
        const bytes = bytesOf(data), given = named(options, ["index", ...PDF_CHOICES], "options");
        const index = indexOf(given), choices = pdfChoicesOf(given);
        return called("pdfFont", bytes, index, entriesOf(shown), choices);
    }
    return Object.freeze({
        version: library.version,
        pdfFont: (data, shown, options) => pdfFont(data, shown, options),
        glyphsOf: (data, text, options) => glyphs(data, text, options),
        codesOf: (shown, codes) => library.codesOf(entriesOf(shown), codesOf(codes)),
        advances: (data, glyphs, options) => once("advances", data, glyphs, options, ["limits", "coordinates"]),
        kindsOf: (data, glyphs, options) => once("kindsOf", data, glyphs, options, []),
        subset: (data, glyphs, options) => once("subset", data, glyphs, options),
        embed: (data, glyphs, options) => once("embed", data, glyphs, options),
        PdfText: class extends PdfText {
            constructor(data, options) {
                super(library, data, options);
            }
        },
        open: (data, options) => new Font(library, bytesOf(data), indexOf(named(options, ["index"], "options"))),
    });
}

/** The module of what `load` is given. */
async function moduleOf(source) {
    if (classOf(source) === "WebAssembly.Module") {
        return source;
    }
    if (isBuffer(source) || ArrayBuffer.isView(source)) {
        return WebAssembly.compile(bytesOf(source));
    }
    if (classOf(source) === "Response") {
        return compiled(source);
    }
    const url = source === undefined ? new URL("./subsetter.wasm", import.meta.url) : source;
    if (typeof url !== "string" && classOf(url) !== "URL") {
        throw new TypeError("a module is a WebAssembly.Module, bytes, a Response or an address");
    }
    // (Node's fetch reads no file)
    const file = typeof process !== "undefined" && fileOf(url);
    if (file) {
        const { readFile } = await import("node:fs/promises");
        return WebAssembly.compile(await readFile(file));
    }
    return compiled(await fetch(url));
}

/** The address of a file, if it is one; else null. (`fetch` may also take a part of an address, which is none by itself.) */
function fileOf(url) {
    try {
        const whole = new URL(url);
        return whole.protocol === "file:" ? whole : null;
    } catch {
        return null;
    }
}

async function compiled(response) {
    if (!response.ok) {
        throw new Error(`the module isn't at ${response.url}: ${response.status}`);
    }
    return WebAssembly.compile(await response.arrayBuffer());
}

/** The library's calls. `source` is the module, its bytes or where it lies; without it `subsetter.wasm` beside this file. */
export async function load(source) {
    const module = await moduleOf(source);
    if (!WebAssembly.Module.exports(module).some(({ name }) => name === "subsetter_version")) {
        throw new TypeError("the module isn't subsetter.wasm");
    }
    return callsOf(new Library(module, await WebAssembly.instantiate(module, {})));
}
