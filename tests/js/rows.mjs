/** The worked rows, in Node and in browsers: each function returns what differs, as a list of lines. */

export const ERRORS = [, "UnknownKind", "MalformedFont", "Unimplemented", "SubsetError", "OverflowError", "CFFError", "OutOfMemory"];
ERRORS[14] = "BitmapsAlone";
/** What a kind of row has between its glyphs and its status. */
const FIELDS = {
    "": [], limits: ["tokens", "depth"], options: ["tokens", "depth", "drop"], bounded_options: ["tokens", "depth", "drop", "mostBytes"],
    at: ["coordinates", "tokens", "depth", "drop", "mostBytes"],
};

export const bytesOf = (word) => Uint8Array.from(word === "-" ? [] : word.match(/../g), (digits) => parseInt(digits, 16));
const hexadecimal = (bytes) => Array.from(bytes, (it) => it.toString(16).padStart(2, "0")).join("");
const latin1 = (bytes) => bytes && new TextDecoder("latin1").decode(bytes);

export const numbersOf = (word) =>
    word.split(",").filter((it) => it !== "-").flatMap((part) => {
        const [first, last = first] = part.split("..").map(Number);
        return Array.from({ length: last - first + 1 }, (_, i) => first + i);
    });

/** The options of a row; undefined for a row that they can't say: a tag twice, or an unknown bit. */
function optionsOf(kind, words) {
    const { coordinates, drop = 0, ...limits } = Object.fromEntries(FIELDS[kind].map((name, i) => [name, words[i]]));
    const options = {};
    if (coordinates) {
        const pairs = coordinates.split(",").filter((it) => it !== "-").map((it) => [it.slice(0, 4), Number(it.slice(5)) / 65536]);
        options.coordinates = Object.fromEntries(pairs);
        if (Object.keys(options.coordinates).length < pairs.length) return undefined;
    }
    if (Number(drop) > 7) return undefined;
    if (Number(drop) === 7) options.small = true;
    else ["hinting", "names", "glyphNames"].forEach((name, i) => Number(drop) & (1 << i) && (options[name] = false));
    // (0 is the default, but not where the row is one of limits)
    const named = Object.entries(limits).filter(([, word]) => kind === "limits" || word !== "0");
    if (named.length > 0) options.limits = Object.fromEntries(named.map(([name, word]) => [name, Number(word)]));
    return options;
}

/** The rows that can be said, the fonts by name, and the texts of the statuses. */
export function readRows(table) {
    const lines = table.split("\n").filter((line) => line && !line.startsWith("#")).map((line) => line.split(" "));
    const named = (kind) => lines.filter(([it]) => it === kind).map(([, name, word]) => [name, bytesOf(word)]);
    const fonts = Object.fromEntries(named("font")), texts = Object.fromEntries(named("text").map(([status, bytes]) => [status, latin1(bytes)]));
    const rows = [];
    for (const [kind, name, font, index, glyphs, ...words] of lines.filter(([kind]) => !["font", "text"].includes(kind))) {
        const [, call, own] = /^(subset|embed|)_?(.*)$/.exec(kind), options = optionsOf(own, words);
        const [status, made, cids, widths] = words.slice(FIELDS[own].length);
        const { tokens, depth = 1 } = options?.limits ?? {};
        const error = tokens === 0 || depth === 0 || depth > 255 ? "RangeError" : status !== "0" && `${ERRORS[status]}: ${texts[status]}`;
        const answer = call === "embed" ? { font: made.replace("-", ""), cids: numbersOf(cids ?? "-"), widths: numbersOf(widths ?? "-") } : made;
        if (options) rows.push({ name: `${kind} ${name}`, call: call || "subset", font: fonts[font], index: Number(index), glyphs: numbersOf(glyphs), options, wanted: error || JSON.stringify(answer) });
    }
    return { rows, fonts, texts };
}

/** What a call returns or throws, as text. An error is named by its class. */
function outcome(library, call) {
    try {
        const answer = call();
        return JSON.stringify(answer instanceof Uint8Array ? hexadecimal(answer) : { ...answer, font: hexadecimal(answer.font) });
    } catch (error) {
        return error.constructor === RangeError ? "RangeError" : error.constructor === library[error.name] ? String(error).split(": ", 2).join(": ") : `${error.stack}`;
    }
}

/** Runs each row by one call, and twice on an opened font. */
export function wrongRows(library, subsetter, table) {
    const wrong = [];
    for (const { name, call, font, index, glyphs, options, wanted } of readRows(table).rows) {
        const opened = subsetter.open(font, { index });
        const ways = [() => subsetter[call](font, glyphs, { index, ...options }), () => opened[call](glyphs, options), () => opened[call](new Set(glyphs), options)];
        if (call === "embed") ways.pop();
        if (index === 0) ways.push(() => subsetter[call](font, glyphs, options));
        ways.forEach((way, i) => {
            const found = outcome(library, way);
            if (found !== wanted) wrong.push(`${name}, way ${i}: ${found.slice(0, 200)}, and not ${wanted.slice(0, 200)}`);
        });
        opened.close();
    }
    return wrong;
}

// ---- fonts for a PDF

const PDF_OPTIONS = {
    "direction=Vertical": { vertical: true }, "codes=Source": { codes: "source" }, "codes=EachText": { codes: "each_text" },
    "bounds=Kept": { bounds: "kept" }, "program=OpenType": { program: "opentype" }, "rights=Held": { rights: "held" }, cid_set: { cidSet: true },
};
const KINDS = { TrueType: "TrueType", CFF: "CIDFontType0C", OpenType: "OpenType" };
const words = (text) => text.split(" ").filter((it) => it);
export const textOf = (word) => word.split(",").filter((it) => it).map((it) => String.fromCodePoint(parseInt(it, 16))).join("");

/** The rows for PDF as objects of fields; `object` has a list of them. */
export function readPdfRows(text) {
    return text.split(/\n\n+/).map((block) => block.replace(/^#.*\n?/gm, "")).filter((block) => block.trim()).map((block) => {
        const row = { object: [] };
        for (const [, name, value] of block.matchAll(/^(\w+) ?(.*)$/gm)) {
            if (name === "object") row.object.push(value.replace(/^\d+ /, ""));
            else row[name] = value.replaceAll("~", "\n");
        }
        return row;
    });
}

/** GLYPH:CHARACTER,CHARACTER.. as an entry. */
export function entryOf(word) {
    const [glyph, text] = word.split(":");
    return { glyph: Number(glyph), text: textOf(text) };
}

function pdfCall(row) {
    const shown = words(row.shown).map(entryOf);
    const options = Object.assign({ hinting: false }, ...words(row.options).map((word) => PDF_OPTIONS[word]));
    if (row.coordinates !== "-") options.coordinates = Object.fromEntries(row.coordinates.split(",").map((it) => [it.slice(0, 4), Number(it.slice(5))]));
    return [shown, options];
}

/** The parts of an answer as a row writes them. */
function fields(font) {
    const { descriptor: values, permission } = font;
    const columns = font.columns && [...font.columns.map(({ advance, x, y }) => `${advance},${x},${y}`), ...Array(font.glyphCount - font.columns.length).fill("-")];
    const found = {
        kind: KINDS[font.kind], program: hexadecimal(font.program), glyph_count: font.glyphCount, cids: font.cids.join(" "), codes: font.codes.join(" "),
        is_said: font.textIsMapped.map(Number).join(" "), widths: font.widths.join(" "), default_width: font.defaultWidth, columns: columns?.join(" "),
        dw2: font.defaultColumn?.join(" "), name: values.fontName, flags: values.flags, bounds: values.bounds.join(" "), angle: values.italicAngle,
        ascent: values.ascent, descent: values.descent, cap_height: values.capHeight, x_height: values.xHeight ?? "-", stem_v: values.stemV,
        font_weight: values.fontWeight, to_unicode: latin1(font.toUnicode), encoding: latin1(font.encoding), cid_set: font.cidSet ? hexadecimal(font.cidSet) : "-",
        permission: `${permission.usage.replace(/[A-Z]/g, (it) => `_${it.toLowerCase()}`)} subsetting ${Number(permission.subsetting)} outlines ${Number(permission.outlines)}`,
    };
    return Object.fromEntries(Object.entries(found).map(([name, value]) => [name, value === undefined ? undefined : String(value)]));
}

/** The objects of a row from number 4 on, with the streams of the font, and where each begins. */
function objectsOf(row, font) {
    const streams = [font.program, font.toUnicode, font.cidSet, font.encoding].filter((it) => it).map(latin1), offsets = [];
    let bytes = "";
    row.object.forEach((dictionary, i) => {
        offsets.push(bytes.length);
        bytes += `${i + 4} 0 obj\n${dictionary}\n${i >= 3 ? `stream\n${streams[i - 3]}\nendstream\n` : ""}endobj\n`;
    });
    return JSON.stringify({ bytes, offsets });
}

/** Runs each row for PDF by one call and on an opened font. `files` has the bytes of a font by its name. */
export function wrongPdfRows(library, subsetter, text, files) {
    const wrong = [];
    for (const row of readPdfRows(text)) {
        const [shown, options] = pdfCall(row), opened = subsetter.open(files[row.font]);
        for (const call of [() => subsetter.pdfFont(files[row.font], shown, options), () => opened.pdfFont(shown, options)]) {
            const check = (holds, what) => holds || wrong.push(`${row.row}: ${what}`);
            let font;
            try {
                font = call();
            } catch (error) {
                const kind = { NotPermitted: library.NotPermitted, TextTooLong: library.InvalidText }[row.error];
                check(error.constructor === kind, `${error.stack}`);
                continue;
            }
            check(!row.error, "no error");
            for (const [field, value] of Object.entries(fields(font))) check(value === row[field], `${field} is ${value}, and not ${row[field]}`);
            const { bytes, offsets } = font.objects(4), line = latin1(font.sheet()), grid = latin1(font.sheet("grid"));
            check(JSON.stringify({ bytes: latin1(bytes), offsets }) === objectsOf(row, font), "its objects");
            check(!row.encoding || row.encoding.includes(`/CMapName /${font.encodingName} def`), "the name of its CMap");
            check(line === latin1(font.sheet("line")) && line.startsWith("%PDF-1.7\n") && line.endsWith("%%EOF\n"), "its sheet");
            check(line.includes(latin1(font.objects(5).bytes)) && grid.includes("[0 0 595 842]") && !line.includes("[0 0 595 842]"), "its pages");
            check(line.includes("/ActualText") === font.textIsMapped.includes(false), "texts that codes don't say");
        }
        opened.close();
    }
    return wrong;
}
