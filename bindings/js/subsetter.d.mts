/**
 * Fonts cut down to some of their glyphs, for embedding in PDF. All that a PDF has of a font:
 *
 *     const subsetter = await load();
 *     const font = subsetter.pdfFont(bytes, subsetter.glyphsOf(bytes, "Hello"));
 *     font.objects(5), font.sheet();   // the objects for a PDF of your own, which names object 5; a whole PDF of one line
 *
 * The font alone is `subsetter.subset(bytes, [36, 68])`.
 */

/**
 * Why a font can't be subset; its `name` is that of its class. Its message says it in words and, after a colon, which table or glyph the
 * font shows it by: "malformed font: glyph 60000: the font's glyphs are 0 to 6252".
 */
export class SubsetterError extends Error {}
/** No OpenType font, or one without outlines. */
export class UnknownKind extends SubsetterError {}
/** A table is missing or cut, or there is no such glyph or face. */
export class MalformedFont extends SubsetterError {}
/** The outlines are CFF2, and there are no `coordinates`, or a glyph is an accented character that `endchar` puts together. */
export class Unimplemented extends SubsetterError {}
/** A kept string lies outside its table, or the new `name` would be too large. */
export class SubsetError extends SubsetterError {}
/**
 * The glyphs leave no number for glyph 0, or the new font would be too large; or a real number of a CFF dict has more than
 * 64 characters, or `hhea` counts no metrics.
 */
export class OverflowError extends SubsetterError {}
/** `CFF ` has another version than 1, or a charstring can't be run, or not within the limits. */
export class CFFError extends SubsetterError {}
/** Memory ran out. The next call is as good as any. */
export class OutOfMemory extends SubsetterError {}

/** The font's maker doesn't permit that it is embedded (`fsType` of the table `OS/2`), and `rights` isn't "held". */
export class NotPermitted extends SubsetterError {}
/** A text has an unpaired surrogate, or more than 256 UTF-16 units; or glyphs are no run of the font and of their text. */
export class InvalidText extends SubsetterError {}
/** The font has no table by which characters have glyphs. */
export class NoCmap extends SubsetterError {}
/** The face has no outlines (`glyf`, `CFF `, `CFF2`), but bitmaps or other pictures, or none: `pdfFont` alone throws it. */
export class BitmapsAlone extends UnknownKind {}
/** The font lacks characters of a text. */
export class MissingCharacters extends SubsetterError {
    /** Their places, as of `TextGlyphs`. */
    readonly missing: readonly number[];
}
/** The font of a PdfText would have more than 65,535 codes, code 0 among them, or glyphs: the run is for another one. */
export class Overfull extends OverflowError {}

/** The bytes of a whole file, OpenType or a collection. They are copied, and never written. */
export type FontData = ArrayBufferLike | ArrayBufferView;

/** How far the charstring of a glyph may run (fonts with CFF outlines), and how many bytes the new font may have. */
export interface Limits {
    /** At most this many numbers and operators, from 1 to 4294967295. Without it 1000000. */
    readonly tokens?: number;
    /** At most so deep, from 1 to 255; the glyph's own charstring is at depth 1. Without it 64. */
    readonly depth?: number;
    /** The most bytes that the new font may have, of any kind, from 1 to 4294967295. Without it there is no bound. */
    readonly mostBytes?: number;
    /** @deprecated The older name of `mostBytes`. */
    readonly bytes?: number;
}

/** What is kept of a font besides its outlines and metrics: all, where nothing is said. */
export interface Choices {
    readonly limits?: Limits;
    /** True: the smallest font, without hinting, names and names of glyphs. */
    readonly small?: boolean;
    /**
     * False: TrueType outlines lose their instructions, and the font its `cvt `, `fpgm` and `prep`. Some fonts draw by
     * instructions, and come to wrong shapes without them. The hints of CFF outlines stay.
     */
    readonly hinting?: boolean;
    /** False: without `name`. */
    readonly names?: boolean;
    /** False: without the names of glyphs in `post`. */
    readonly glyphNames?: boolean;
}

/** Where on the axes of a variable font its glyphs are taken. */
export interface Place {
    /**
     * Tags of axes, of four ASCII characters, with values in what the axes count: `{ wght: 650, wdth: 87.5 }`. A value is
     * finite, and is taken as the nearest number of 65536ths, a half rounded up. An axis without a value stays at its default,
     * one past an axis's end is that end, and a tag that the font doesn't have is passed over: `unknownAxes` of
     * `pdfFont(data, [], { coordinates, rights: "held" })` lists such tags.
     *
     * Where the font is at its default, has no axes or has its outlines in `CFF `, it is subset as it is, with its hints.
     * Else the new font is a static one, each glyph a simple outline without instructions, and `limits.tokens` bounds the
     * steps of a glyph: one for each glyph that it leads to, each point, each tuple, and each point again of a tuple that
     * counts; OverflowError where it takes more. Besides, MalformedFont is thrown where `fvar`, `avar`, `gvar` or `HVAR` is cut,
     * and Unimplemented for an `avar` of another version than 1.
     *
     * A font with outlines in `CFF2`, and neither `glyf` nor `CFF `, is made static at its default too, which is `{}`: the new font
     * has outlines in a CID-keyed `CFF `, with their stems, and each coordinate is rounded once; OverflowError where one doesn't
     * fit its 16 bits.
     */
    readonly coordinates?: { readonly [tag: string]: number };
}

export interface Face {
    /** The face of a collection, from 0. In a file with one font it isn't looked at. */
    readonly index?: number;
}

export interface Embedded {
    /** The subset of the font. */
    font: Uint8Array;
    /** The CID of each given glyph, in the order given. */
    cids: number[];
    /** The width of each CID, from 0 on, in thousandths of the em. */
    widths: number[];
}

/** A glyph in use, and its text. */
export interface Shown {
    /** The number of the glyph in the font, from 0 to 65535. */
    readonly glyph: number;
    /** Its text: none, a character, or several (a ligature). */
    readonly text: string;
}

/** The glyphs of a text. */
export interface TextGlyphs extends Array<Shown> {
    /** The places in the text of what the font lacks: controls, which have no entry, and characters whose entry has glyph 0. */
    readonly missing: readonly number[];
}

/** What is done about characters that a font lacks: they get glyph 0, as without it, or MissingCharacters is thrown. */
export interface MissingChoice {
    readonly missing?: "glyph_0" | "error";
}

/** What a caller chooses of a font for a PDF. Names of the font and of its glyphs are never kept. */
export interface PdfChoices {
    readonly limits?: Limits;
    /** As of `Choices`. */
    readonly small?: boolean;
    /** As of `Choices`. */
    readonly hinting?: boolean;
    /** Of a font with outlines in `CFF ` the bytes of `CFF ` alone, the smallest, or the whole file (PDF 1.6). */
    readonly program?: "smallest" | "opentype";
    /**
     * How glyphs get codes: consecutive, the CIDs, from 1 on; source, the glyph's number in the font; or one for each pair of a
     * glyph and a text, so that one glyph can say "B" and "b". Without it consecutive.
     */
    readonly codes?: "consecutive" | "source" | "each_text" | /** @deprecated */ "eachText";
    /** True: text runs from top to bottom. */
    readonly vertical?: boolean;
    /** Whether FontBBox holds all glyphs of the font, or those kept. Without it those of the font. */
    readonly bounds?: "font" | "kept";
    /** True: there is a CIDSet, which PDF/A-1 demands. */
    readonly cidSet?: boolean;
    /** The six capitals in front of the font's name. Without them they are computed of the font program. */
    readonly tag?: string;
    /** Whether `fsType` of the table `OS/2` counts, or the caller holds the rights to embed the font. Without it `fsType`. */
    readonly rights?: "from_font" | "held" | /** @deprecated */ "asSaid";
}

/** A CID in vertical writing (ISO 32000-1, 9.7.4.3), in thousandths of the em. */
export interface Column {
    /** From one glyph to the next, mostly below 0: downwards. */
    advance: number;
    /** The origin of vertical writing, to the right of that of horizontal writing. */
    x: number;
    /** And above it. */
    y: number;
}

/** The values of the font descriptor (Table 122). Lengths are in thousandths of the em. */
export interface Descriptor {
    /** FontName: six capitals, `+` and the PostScript name, in characters that need no escape. */
    fontName: string;
    /** Flags (Table 123). */
    flags: number;
    /** FontBBox: the left, lower, right and upper edges. */
    bounds: [number, number, number, number];
    /** ItalicAngle, in degrees with at most three decimals, counterclockwise. */
    italicAngle: number;
    ascent: number;
    /** Not above 0. */
    descent: number;
    capHeight: number;
    /** Where the font has it. */
    xHeight?: number;
    stemV: number;
    /** 100, 200 and so on up to 900. */
    fontWeight: number;
}

/** What the font's maker permits (`fsType` of the table `OS/2`). */
export interface Permission {
    /** What a document may do with the font. */
    usage: "unsaid" | "installable" | "editable" | "previewAndPrint" | "restricted";
    /** Whether a subset may be embedded for the font. */
    subsetting: boolean;
    /** Whether outlines may be embedded, and not bitmaps alone. */
    outlines: boolean;
}

/** Whole indirect objects of a PDF, one after the other. */
export interface Objects {
    bytes: Uint8Array;
    /** Where each object begins in them, for the cross-reference table. */
    offsets: number[];
}

/** An object of a PDF, as data: a dictionary, or a stream with its dictionary. */
export interface Part {
    /** What it is. */
    role: "font" | "cid_font" | "descriptor" | "program" | "to_unicode" | "cid_set" | "encoding" | "cid_to_gid_map";
    /** Its number, as the caller chose it. */
    number: number;
    /** The entries of its dictionary, without `<<`, `>>` and Length, and without Filter unless the stream is packed. */
    entries: Uint8Array;
    /** Where strings are in the entries, with their parentheses, from and up to: encryption has to cover these too. */
    strings: [number, number][];
    /** The bytes of the stream; none where the object is none. */
    stream?: Uint8Array;
    /** The object, as it is between `N 0 obj` and `endobj`: of the entries and the stream that are set now. */
    readonly value: Uint8Array;
}

/** How the streams of parts are packed. */
export interface Packing {
    /**
     * Packs the bytes of a stream, as Node's `deflateSync` does. Without it nothing is packed. (A browser's `CompressionStream` ends
     * later: set `entries` and `stream` of each part then.)
     */
    readonly pack?: (bytes: Uint8Array) => Uint8Array;
    /** The Filter of that, as PDF writes it. Without it "/FlateDecode". */
    readonly filter?: string;
}

/**
 * A kind of picture of a glyph: a paint or layers of `COLR`; `SVG `; an image of `CBDT` by its format; a graphic of `sbix` by its type
 * ("dupe" is that of another glyph); an image of `EBDT`; an outline, or none or an empty one.
 */
export type GlyphKind =
    | "colr1" | "colr0" | "svg" | "cbdt17" | "cbdt18" | "cbdt19" | "cbdt" | "sbix-png" | "sbix-jpg" | "sbix-tiff" | "sbix-pdf" | "sbix-mask"
    | "sbix-dupe" | "sbix" | "ebdt" | "outline" | "empty";

/** Advances of glyphs, in the font's units. */
export interface Advances {
    /** How many units an em has. */
    unitsPerEm: number;
    /** Of each given glyph the horizontal advance. */
    widths: number[];
    /** And the vertical one: an em where the font has none. */
    heights: number[];
}

/** All that a PDF has of a font for the glyphs in use. An entry is a glyph in use with its text; the font of a PdfText has none. */
export interface PdfFont {
    /** The font program. */
    program: Uint8Array;
    /** What it is (9.9): a TrueType file, the bytes of `CFF `, or an OpenType file with outlines in `CFF `. */
    kind: "TrueType" | "CFF" | "OpenType";
    /** How many glyphs it has: its CIDs are the numbers below. */
    glyphCount: number;
    /** The CID of each entry. */
    cids: number[];
    /** The code of each entry, which strings hold in two bytes, the higher first. */
    codes: number[];
    /** Of each entry whether readers find its text by its code; where they don't, the page says it by an ActualText (14.9.4). */
    textIsMapped: boolean[];
    /** @deprecated The older name of `textIsMapped`. */
    readonly isSaid: boolean[];
    /** The width of each CID, in thousandths of the em. */
    widths: number[];
    /** The width of each CID in the font's units. */
    exactWidths: number[];
    /** How many units of the font an em has. */
    unitsPerEm: number;
    /** The axes of the coordinates that the font doesn't have. */
    unknownAxes: string[];
    /**
     * The places of the entries that are blank though the font has a picture of the glyph (`kindsOf`): its outline is empty, and a PDF
     * shows nothing else.
     */
    unseen: number[];
    /** DW. */
    defaultWidth: number;
    /** In vertical writing of each CID from 0 on that a string can show. */
    columns?: Column[];
    /** DW2 in vertical writing: y and advance. */
    defaultColumn?: [number, number];
    descriptor: Descriptor;
    permission: Permission;
    /** The ToUnicode CMap (9.10.3). */
    toUnicode: Uint8Array;
    /** The CMap from codes to CIDs; none where each code is its CID (`Identity-H` or `Identity-V`). */
    encoding?: Uint8Array;
    /** Its name. */
    encodingName?: string;
    /** The bytes of CIDSet, if it was chosen. */
    cidSet?: Uint8Array;
    /** The bytes of CIDToGIDMap (9.7.4.2), where it is a stream. */
    cidToGidMap?: Uint8Array;
    /**
     * The font's objects, whole, with numbers from `first` on: the Type 0 font, which pages name, its CIDFont, the font
     * descriptor, the font program, ToUnicode, CIDToGIDMap if it is a stream, CIDSet if there is one, and the CMap if the file has
     * its own. Streams have no filter, and it is for files that aren't encrypted. OverflowError is thrown where seven numbers from
     * `first` on, eight with a CIDToGIDMap as a stream, don't fit 32 bits. (What is changed in this object isn't written.)
     */
    objects(first: number): Objects;
    /** The string that shows these codes, as "<00010002>". */
    string(codes: Iterable<number>): string;
    /** How many objects it has. */
    partCount: number;
    /**
     * The font's objects as data, with numbers of the caller's: `partCount` of them, distinct and above 0, that of the Type 0 font
     * first. They are in the order of `objects`, and each has the `value` that is written there for the same numbers. A RangeError is
     * thrown for other numbers, and for a filter without a slash or bracket in front.
     */
    parts(numbers: Iterable<number>, options?: Packing): Part[];
    /**
     * A whole PDF file that shows the entries in 36 points: in one line (in vertical writing in one column) on a page that is as
     * long, or in a grid, 12 by 16 a page. Without a layout a line. A TypeError for the font of a `PdfText`, which has none.
     */
    sheet(layout?: "line" | "grid"): Uint8Array;
    /** Gives back what `objects` and `sheet` are written of: they throw a TypeError afterwards. All else stays. */
    close(): void;
}

/** A glyph of a run. Lengths are in the font's units. */
export interface Item {
    /** The number of the glyph in the font, from 0 to 65535. */
    readonly glyph: number;
    /** The text of the cluster that begins here; none where the glyph continues a cluster. */
    readonly text?: string;
    /** How far the pen goes on. Without both advances it is the font's own one. */
    readonly xAdvance?: number;
    /** The same upwards, in vertical writing. */
    readonly yAdvance?: number;
    /** How far the glyph is from the pen. */
    readonly xOffset?: number;
    /** And above it. */
    readonly yOffset?: number;
}

/** A glyph as harfbuzzjs has it in the list of `buffer.json()`, and `hb-shape` in its JSON. Lengths are in the font's units. */
export interface ShapedGlyph {
    /** The number of the glyph in the font. */
    readonly g: number;
    /** How many UTF-16 units of the text are before its cluster. (`hb-shape` counts characters: one beyond U+FFFF is two units.) */
    readonly cl: number;
    /** How far the pen goes on. */
    readonly ax: number;
    readonly ay: number;
    /** How far the glyph is from the pen. */
    readonly dx: number;
    readonly dy: number;
}

/** How a run goes on. */
export interface RunChoices {
    /** "ltr", if nothing is said, or "rtl"; of a vertical text "ttb". */
    readonly direction?: "ltr" | "rtl" | "ttb";
    /** The size of Tf. Without it 12. */
    readonly size?: number;
}

/** What shows a run: operators for a content stream. */
export interface Run extends Uint8Array {
    /** How far the pen goes on, in thousandths of the em; downwards it is below 0. */
    readonly advance: number;
}

/** What a caller chooses of a text. */
export interface TextChoices {
    readonly limits?: Limits;
    /** True: text runs from top to bottom. */
    readonly vertical?: boolean;
    /** As of `PdfChoices`. */
    readonly rights?: PdfChoices["rights"];
    /**
     * How a run from right to left is written: as it is seen, which more readers copy rightly, or as it is read, for a tagged PDF.
     * Without it as it is seen.
     */
    readonly order?: "visual" | "logical";
    /**
     * False: the font gets no own glyphs. Else, in horizontal text, own ones draw the parts of a ligature, and of a font with outlines
     * in `glyf` a letter with its marks. More readers copy and find the text then.
     */
    readonly ownGlyphs?: boolean;
}

/** Text of a font in a PDF: runs of shaped glyphs, which readers copy and find, and then the font that they want. */
export interface PdfText {
    /** How many units of the font an em has. */
    unitsPerEm: number;
    /**
     * What shows a run of glyphs, in the order in which they are seen, for a content stream: between BT and ET, after Tf and Td or
     * Tm, where Tc, Tw and Ts are 0 and Tz is 100. The pen goes on by the run's `advance`.
     *
     * InvalidText is thrown where the first item continues a cluster, a glyph isn't the font's (without advances MalformedFont), an
     * advance leaves the line, a text has an unpaired surrogate, or one that needs an ActualText is too long; and Overfull. After an
     * error the text is as it was.
     */
    run(items: Iterable<Item>, options?: RunChoices): Run;
    /**
     * The same of what HarfBuzz has made of a text, where its font has the scale of units per em. A cluster's text goes from its number
     * to the next greater one of the run, or to the end. InvalidText is also thrown where a number isn't where a character begins,
     * or numbers fall in reading order.
     */
    shaped(text: string, glyphs: Iterable<ShapedGlyph>, options?: RunChoices): Run;
    /** The advances of glyphs in thousandths of the em, as W has them. */
    advances(glyphs: Iterable<number>): number[];
    /** All that a PDF has of the font, for the runs so far; it may be asked again after further ones. Errors are those of `pdfFont`. */
    font(options?: Pick<PdfChoices, "small" | "hinting" | "bounds" | "cidSet" | "tag">): PdfFont;
    /**
     * A whole PDF file of runs of this text, each on a page of its own, with the font for the runs so far. The font has 36 points there,
     * and so has to be `size` of the runs: a RangeError for another, a TypeError for a run of another text. Options and other errors
     * are those of `font`.
     */
    sheet(runs: Iterable<Run>, options?: Parameters<PdfText["font"]>[0]): Uint8Array;
    /** Gives the font's memory back. Its calls throw a TypeError afterwards; fonts that it made stay. */
    close(): void;
}

/**
 * `glyphs` are glyph numbers of the font, from 0 to 65535, in any order, with repeats if need be. The new font has glyph 0,
 * then the given glyphs in order, each once, and then each further glyph that these need as components.
 *
 * Each call throws a SubsetterError by its name; TypeError for what is no font, no iterable of numbers or no such option;
 * and RangeError for a number that is not whole or too large, or for a wrong tag or value of a coordinate.
 */
export interface Subsetter {
    /** The library's version, as "1.0.0". */
    readonly version: string;
    /**
     * All that a PDF has of a font for glyphs in order of use, with repeats if need be. Besides, BitmapsAlone, NotPermitted and
     * InvalidText are thrown. No value of the font descriptor is a reason: where a table is missing or cut, another source of the value is taken.
     */
    pdfFont(data: FontData, shown: Iterable<Shown>, options?: Face & PdfChoices & Place): PdfFont;
    /**
     * The glyph of each character of a text, by the font's table `cmap`, with the character: what `pdfFont` takes. The text
     * isn't shaped: there are no ligatures, no kerning and no reordering, which Arabic or Devanagari need. A character that the
     * font lacks gets glyph 0, or MissingCharacters is thrown. A character with a variation selector is one entry. A default
     * ignorable (a soft hyphen, a joiner, a mark of direction) is text of the entry before it, or of the one after it where none is
     * before. A control has no entry, and is among the missing. NoCmap is thrown where the font has no usable table.
     */
    glyphsOf(data: FontData, text: string, options?: Face & MissingChoice): TextGlyphs;
    /**
     * The code of each entry, as `pdfFont` gives it: it takes no font, so that pages can be written first. Where a list goes on, the
     * codes of the entries before stay. OverflowError is thrown for more than 65,534 glyphs, or pairs of a glyph and a text, besides
     * glyph 0.
     */
    codesOf(shown: Iterable<Shown>, codes?: PdfChoices["codes"]): number[];
    /**
     * The advances of glyphs before the font is embedded: in the order given, in the font's units, exact, at the coordinates. Of the
     * limits `tokens` counts alone.
     */
    advances(data: FontData, glyphs: Iterable<number>, options?: Face & Place & { readonly limits?: Limits }): Advances;
    /**
     * All kinds of pictures that a font has of each glyph, in the order in which a reader of OpenType prefers them; the last is
     * "outline" or "empty". A PDF shows the outline alone, so a glyph that is "empty" and has another picture is blank there. A picture
     * is what a table lists, whether it can be drawn or not; a table that is cut or wrong lists none. The font needs no outlines, and a glyph
     * that it lacks is "empty".
     */
    kindsOf(data: FontData, glyphs: Iterable<number>, options?: Face): GlyphKind[][];
    /** The subset of a font for glyph 0 and the given glyphs. */
    subset(data: FontData, glyphs: Iterable<number>, options?: Face & Choices & Place): Uint8Array;
    /**
     * The subset, the CID of each given glyph, and the width of each CID. Besides, MalformedFont is thrown where the font
     * has no `hmtx` or no `head`, or 0 units per em. With coordinates a width is the advance that its glyph has there.
     */
    embed(data: FontData, glyphs: Iterable<number>, options?: Face & Choices & Place): Embedded;
    /** The text of a font, which is copied into the module. It throws what `advances` does, and MalformedFont without `maxp`. */
    readonly PdfText: new (data: FontData, options?: Face & TextChoices & Place) => PdfText;
    /** Copies a font into the module, for any number of calls. The first of them reports what is wrong with it. */
    open(data: FontData, options?: Face): Font;
}

/** A font in the module's memory. */
export interface Font {
    /** As `Subsetter.pdfFont`. */
    pdfFont(shown: Iterable<Shown>, options?: PdfChoices & Place): PdfFont;
    /** As `Subsetter.glyphsOf`. */
    glyphsOf(text: string, options?: MissingChoice): TextGlyphs;
    /** As `Subsetter.advances`. */
    advances(glyphs: Iterable<number>, options?: Place & { readonly limits?: Limits }): Advances;
    /** As `Subsetter.kindsOf`. */
    kindsOf(glyphs: Iterable<number>): GlyphKind[][];
    /** As `Subsetter.subset`. */
    subset(glyphs: Iterable<number>, options?: Choices & Place): Uint8Array;
    /** As `Subsetter.embed`. */
    embed(glyphs: Iterable<number>, options?: Choices & Place): Embedded;
    /** Gives the font's memory back to later calls. Its other calls throw a TypeError afterwards. */
    close(): void;
}

/**
 * The library's calls, in an instance of the module of their own, which is given back with them. `source` is the module, its
 * bytes, an answer of `fetch` or its address (of a file `pathToFileURL(path)`); without it `subsetter.wasm` beside this file.
 */
export function load(source?: WebAssembly.Module | ArrayBuffer | ArrayBufferView | URL | Response | string): Promise<Subsetter>;
