/** What the calls take: fonts, glyph numbers, options and coordinates of each kind, and what they throw for others. */
import assert from "node:assert/strict";
import { test } from "node:test";
import { createContext, runInContext } from "node:vm";
import { changed, fonts, library, made, plainFont, subsetter, texts, throws, wasm, watched } from "./support.mjs";

const FONT = fonts.three_glyphs, TTF = made("made.ttf"), SHOWN = [{ glyph: 1, text: "A" }];
const { load } = library;

/** Each call on a font with some options: by one call, and on an opened font. */
function callsOn(font, glyphs, options) {
    const opened = subsetter.open(font);
    return [() => subsetter.subset(font, glyphs, options), () => subsetter.embed(font, glyphs, options), () => opened.subset(glyphs, options), () => opened.embed(glyphs, options)];
}

const wrongGlyphs = (kind, glyphs, what) => callsOn(FONT, glyphs).forEach((call) => throws(call, kind, what));
/** Options that each call with options refuses. */
function wrongOptions(kind, options) {
    const what = JSON.stringify(options, (_, it) => (typeof it === "bigint" ? `${it}n` : it));
    for (const call of callsOn(FONT, [1], options)) throws(call, kind, what);
    throws(() => subsetter.pdfFont(TTF, SHOWN, options), kind, what);
    throws(() => subsetter.open(TTF).pdfFont(SHOWN, options), kind, what);
}

test("fonts", () => {
    for (const data of ["text", 5, null, undefined, [0, 1], {}, new Blob([])]) {
        for (const call of ["subset", "embed", "glyphsOf", "pdfFont", "open"]) throws(() => subsetter[call](data, call === "glyphsOf" ? "A" : []), TypeError, `${call} ${data}`);
    }
    const font = plainFont(40, 16), wanted = subsetter.subset(font, [3, 1, 2, 3]), padded = new Uint8Array(font.length + 10).fill(7);
    padded.set(font, 3);
    const shared = new SharedArrayBuffer(font.length);
    new Uint8Array(shared).set(font);
    for (const data of [font.buffer, padded.subarray(3, 3 + font.length), new DataView(padded.buffer, 3, font.length), new Uint16Array(font.slice().buffer), shared]) {
        assert.deepEqual(subsetter.subset(data, [3, 1, 2, 3]), wanted);
        assert.deepEqual(subsetter.open(data).subset([3, 1, 2, 3]), wanted);
    }
    assert.deepEqual(font, plainFont(40, 16), "the font isn't written");
    const numbers = Array.from({ length: 39 }, (_, i) => 39 - i), { cids, widths } = subsetter.embed(font, numbers);
    assert.deepEqual([cids, widths], [numbers.map((_, i) => i + 1), [500, ...numbers.map((glyph) => 500 + glyph)]]);
});

test("glyph numbers", () => {
    const font = plainFont(40, 16), wanted = subsetter.subset(font, [3, 1, 2]);
    const list = Uint16Array.of(3, 1, 2), generated = function* () {
        for (const glyph of list) {
            assert.deepEqual(subsetter.subset(font, [3, 1, 2]), wanted, "a call within a call");
            yield glyph;
        }
    };
    for (const glyphs of [new Set(list), list, Float64Array.from(list), list.values(), generated()]) assert.deepEqual(subsetter.subset(font, glyphs), wanted);
    assert.deepEqual(list, Uint16Array.of(3, 1, 2));
    assert.deepEqual(subsetter.subset(font, [-0]), subsetter.subset(font, []));
    const none = [5, null, undefined, "12", "", {}, { length: 1, 0: 1 }, new ArrayBuffer(2), ["1"], [1n], [null], [undefined], [true], [[1]], [, 1], new Map([[1, 2]])];
    for (const glyphs of none) wrongGlyphs(TypeError, glyphs, Object.prototype.toString.call(glyphs));
    for (const glyph of [-1, 65536, 1.5, NaN, Infinity, -Infinity, 2 ** 32, 65572]) wrongGlyphs(RangeError, [1, glyph], glyph);
    // Lists of more than 65,536 numbers, characters and entries.
    const numbers = Array.from({ length: 80000 }, (_, i) => 1 + (i % 39)), short = subsetter.embed(font, numbers.slice(0, 39));
    for (const long of [subsetter.embed(font, numbers), subsetter.open(font).embed(numbers, { coordinates: { wght: 1 } })]) assert.deepEqual(long, { ...short, cids: numbers });
    const shown = subsetter.glyphsOf(TTF, "AH".repeat(40000)), pdf = subsetter.pdfFont(TTF, shown);
    assert.ok(shown.length === 80000 && shown.every(({ glyph, text }, i) => glyph === [1, 9][i % 2] && text === "AH"[i % 2]));
    assert.ok(pdf.codes.length === 80000 && pdf.codes.every((code, i) => code === 1 + (i % 2)));
});

test("options", () => {
    for (const options of [5, null, "index", true, [], new Map([["index", 0]])]) {
        wrongOptions(TypeError, options);
        wrongOptions(TypeError, { limits: options });
        throws(() => subsetter.open(FONT, options), TypeError, "open");
    }
    for (const options of [{ indx: 0 }, { tokens: 5 }, { glyphnames: false }, { limits: { token: 1 } }, { limits: { depth: 1, index: 0 } }]) wrongOptions(TypeError, options);
    for (const value of [0, "no", null, new Boolean(false)]) {
        wrongOptions(TypeError, { hinting: value });
        for (const name of ["names", "glyphNames"]) for (const call of callsOn(FONT, [1], { [name]: value })) throws(call, TypeError, name);
    }
    for (const [name, most] of [["tokens", 2 ** 32 - 1], ["depth", 255], ["mostBytes", 2 ** 32 - 1]]) {
        for (const value of ["5", null, 1n, [1], true]) wrongOptions(TypeError, { limits: { [name]: value } });
        for (const value of [0, -1, most + 1, 2 ** 53, 0.5, NaN, Infinity]) wrongOptions(RangeError, { limits: { [name]: value } });
        for (const value of [most, undefined]) assert.ok(subsetter.subset(FONT, [1], { limits: { [name]: value } }));
    }
    const indexed = [(options) => subsetter.subset(TTF, [1], options), (options) => subsetter.embed(TTF, [1], options), (options) => subsetter.open(TTF, options),
        (options) => subsetter.glyphsOf(TTF, "A", options), (options) => subsetter.pdfFont(TTF, SHOWN, options)];
    for (const call of indexed) {
        for (const index of [-1, 0.5, 2 ** 32, NaN]) throws(() => call({ index }), RangeError, index);
        for (const index of ["0", null, 0n, [0], true]) throws(() => call({ index }), TypeError, index);
        call({ index: 2 ** 32 - 1 });
    }
    throws(() => subsetter.open(FONT).subset([1], { index: 0 }), TypeError, "an index for an opened font");
    throws(() => subsetter.open(FONT, { limits: {} }), TypeError, "limits for open");
    throws(() => subsetter.glyphsOf(TTF, "A", { hinting: true }), TypeError, "hinting for glyphsOf");
    const said = { index: undefined, limits: { tokens: undefined }, hinting: undefined, names: true, glyphNames: true, coordinates: undefined };
    assert.deepEqual(subsetter.subset(FONT, [2], said), subsetter.subset(FONT, [2]));
    // The default limits.
    for (const call of ["subset", "embed"]) {
        assert.ok(subsetter[call](fonts.most_tokens, []) && subsetter[call](fonts.one_token_more, [], { limits: { tokens: 1000001 } }));
        throws(() => subsetter[call](fonts.one_token_more, []), library.CFFError, "a token more");
        throws(() => subsetter[call](fonts.most_tokens, [], { limits: { tokens: 999999 } }), library.CFFError, "a token less allowed");
    }
});

test("coordinates", async () => {
    for (const coordinates of [5, null, "wght", true, [], [["wght", 650]], new Map([["wght", 650]]), new Set(), Int32Array.of(1)]) wrongOptions(TypeError, { coordinates });
    for (const tag of ["", "w", "wgh", "wghtt", "wgh\u00e9", "\u{1f600}", "wght\n", "wgh\u0080"]) wrongOptions(RangeError, { coordinates: { wdth: 1, [tag]: 1 } });
    for (const value of [NaN, Infinity, -Infinity]) wrongOptions(RangeError, { coordinates: { wdth: 1, wght: value } });
    for (const value of ["650", null, undefined, 650n, [650], true, {}]) wrongOptions(TypeError, { coordinates: { wght: value } });
    // What the module is passed: the nearest number of 65536ths, a half up, within 32 bits.
    let passed;
    const change = (exports) => {
        for (const name of ["subsetter_subset_at", "subsetter_embed_at"]) {
            const call = exports[name];
            exports[name] = (struct) => {
                const [at, count] = new Uint32Array(exports.memory.buffer, struct, 7).slice(5);
                passed = [...new Int32Array(exports.memory.buffer, at, 2 * count)];
                return call(struct);
            };
        }
        return exports;
    };
    await watched(async () => {
        const { subset, embed } = await load(wasm), least = -(2 ** 31), most = 2 ** 31 - 1, part = 1 / 65536;
        const rows = [
            [0, 0], [-0, 0], [650, 650 * 65536], [87.5, 5734400], [-10.25, -671744], [0.5 * part, 1], [0.49999999999999994 * part, 0],
            [-0.5 * part, 0], [-0.5000000000000001 * part, -1], [-1.5 * part, -1], [1.5 * part, 2], [2.5 * part, 3], [5e-324, 0],
            [32768 - part, most], [32768, most], [32769.5, most], [-32768, least], [-32768 - part, least], [1.7e308, most], [-1.7e308, least],
        ];
        for (const [value, wanted] of rows) {
            subset(FONT, [1], { coordinates: { wght: value } });
            assert.deepEqual(passed, [0x77676874, wanted], `${value}`);
            embed(fonts.three_advances, [1], { coordinates: { "AZ~ ": value, wdth: 2 } });
            assert.deepEqual(passed, [0x415a7e20, wanted, 0x77647468, 131072], `${value}`);
        }
        const none = subset(FONT, [1], { coordinates: {} });
        assert.deepEqual(passed, []);
        passed = null;
        assert.deepEqual(subset(FONT, [1], { coordinates: undefined }), none);
        assert.equal(passed, null);
    }, change);
});

test("what another realm made is as good", async () => {
    const realm = runInContext("globalThis", createContext()), font = plainFont(40, 16), wanted = subsetter.subset(font, [3, 1, 2]);
    const buffer = new realm.ArrayBuffer(font.length), bytes = realm.Uint8Array.from(wasm);
    new Uint8Array(buffer).set(font);
    for (const glyphs of [realm.Array.of(3, 1, 2), new realm.Set([3, 1, 2]), new realm.Map([[3, 0], [1, 0], [2, 0]]).keys()]) assert.deepEqual(subsetter.subset(font, glyphs), wanted);
    const own = (values) => Object.assign(new realm.Object(), values);
    assert.deepEqual(subsetter.subset(font, [3, 1, 2], own({ index: 0, names: true, limits: own({ tokens: 5 }), coordinates: own({ wght: 1 }) })), wanted);
    for (const data of [buffer, new realm.Uint8Array(buffer), new realm.DataView(buffer)]) {
        assert.deepEqual(subsetter.subset(data, [3, 1, 2]), wanted);
        assert.deepEqual(subsetter.open(data).subset([3, 1, 2]), wanted);
    }
    for (const source of [bytes, bytes.buffer, new realm.WebAssembly.Module(bytes)]) assert.deepEqual((await load(source)).subset(font, [3, 1, 2]), wanted);
});

test("answers are copies", () => {
    const font = plainFont(60, 32), first = subsetter.subset(font, [5, 6]), kept = first.slice();
    assert.ok(first.constructor === Uint8Array && first.buffer.byteLength === first.length);
    for (let i = 0; i < 20; i++) subsetter.subset(font, [40 - i, 7]);
    assert.deepEqual(first, kept);
    first.fill(0);
    assert.deepEqual(subsetter.subset(font, [5, 6]), kept);
});

test("errors", () => {
    const names = ["UnknownKind", "MalformedFont", "Unimplemented", "SubsetError", "OverflowError", "CFFError", "OutOfMemory", "NotPermitted", "InvalidText", "NoCmap", "BitmapsAlone", "MissingCharacters", "Overfull"];
    assert.deepEqual(Object.keys(library).sort(), [...names, "SubsetterError", "load"].sort());
    for (const name of [...names, "SubsetterError"]) {
        const error = new library[name]("why");
        assert.ok(error instanceof library.SubsetterError && error instanceof Error && !Object.hasOwn(error, "name"));
        assert.equal(String(error), `${name}: why`);
        error.name = "Mine";
        assert.equal(String(error), "Mine: why");
    }
});

test("messages say why, and what is wanted", () => {
    const rows = [
        ["Unimplemented", "unsupported feature in font: CFF2: its outlines are taken at coordinates alone: coordinates: {} is the default", () => subsetter.embed(made("made_cff2.otf"), [1])],
        ["OverflowError", "overflow occurred: more than the 9 bytes or 1000000 tokens of the limits, or a number that is too large", () => subsetter.subset(TTF, [1], { limits: { mostBytes: 9 } })],
        ["MissingCharacters", "missing characters: U+0041 at 0: cmap: its table in format 4 has 172 bytes, needs 262152", () => subsetter.glyphsOf(changed("made.ttf", "cmap+20=0009000900000064000400480000fffe"), "A", { missing: "error" })],
        ["OverflowError", "overflow occurred: tokens is 1", () => subsetter.pdfFont(made("made_variable.ttf"), SHOWN, { coordinates: { wght: 650 }, limits: { tokens: 1 } })],
        ["NotPermitted", 'embedding not permitted: OS/2: fsType 0x0002 forbids embedding (bit 1): if you hold the rights, rights: "held"', () => subsetter.pdfFont(changed("made.ttf", "OS/2+8=0002"), SHOWN)],
        ["NotPermitted", 'embedding not permitted: OS/2: fsType 0x0100 forbids subsets (bit 8): if you hold the rights, rights: "held" of new PdfText', () => new subsetter.PdfText(changed("made.ttf", "OS/2+8=0100")).font()],
        ["OverflowError", "overflow occurred: 65535 pairs of a glyph and a text, and at most 65534 besides glyph 0",
            () => subsetter.pdfFont(TTF, Array.from({ length: 65536 }, (_, i) => ({ glyph: i && 1, text: String.fromCodePoint(65536 + i) })), { codes: "each_text" })],
        ["OverflowError", "overflow occurred: 65535 glyphs, and at most 65534 besides glyph 0", () => subsetter.codesOf(Array.from({ length: 65536 }, (_, glyph) => ({ glyph, text: "" })))],
        ["InvalidText", "invalid text: U+D800 is an unpaired surrogate", () => subsetter.glyphsOf(TTF, "\ud800")],
        ["InvalidText", "invalid text: U+DFFF is an unpaired surrogate", () => subsetter.codesOf([{ glyph: 1, text: "A\udfff" }])],
        ["InvalidText", "invalid text: a text has more than 256 UTF-16 units", () => subsetter.pdfFont(TTF, [...SHOWN, { glyph: 1, text: "\u{1f600}".repeat(129) }])],
        [TypeError, "a font must be the bytes of a file, an ArrayBuffer or a view of one (readFileSync(path) and await response.arrayBuffer() have them), and not string", () => subsetter.subset("font.ttf", [1])],
        [TypeError, "glyphs must be an iterable of numbers, as [36, 68] (glyphsOf has those of a text), and not string", () => subsetter.subset(TTF, "AB")],
        [RangeError, "a glyph must be a whole number from 0 to 65535, and not -1", () => subsetter.subset(TTF, [1, -1])],
        [TypeError, "a glyph (.glyph of what glyphsOf answers) must be a number, and not Object", () => subsetter.subset(TTF, subsetter.glyphsOf(TTF, "A"))],
        [TypeError, 'glyphs with their texts must be an iterable of objects, as [{ glyph: 36, text: "A" }] (glyphsOf makes them of a text)', () => subsetter.pdfFont(TTF, [{ glyf: 1, text: "A" }])],
        [TypeError, 'glyphs with their texts must be an iterable of objects, as [{ glyph: 36, text: "A" }] (glyphsOf makes them of a text), and not of Array', () => subsetter.pdfFont(TTF, [[1, "A"]])],
        [TypeError, "a text must be a string, and not null", () => subsetter.pdfFont(TTF, [{ glyph: 1, text: null }])],
    ];
    for (const [kind, message, call] of rows) assert.equal(throws(call, library[kind] ?? kind, message).message, message);
});

test("each status is thrown by its class, in its words", async () => {
    let status = 0;
    const names = ["subset", "subset_at", "embed", "embed_at", "read_text", "pdf_font", "codes_of", "advances", "new_text", "show_run", "show_shaped", "text_font"];
    const change = (exports) => ({ ...exports, ...Object.fromEntries(names.map((name) => [`subsetter_${name}`, () => status])) });
    const kinds = { 1: "UnknownKind", 2: "MalformedFont", 3: "Unimplemented", 4: "SubsetError", 5: "OverflowError", 6: "CFFError", 7: "OutOfMemory", 11: "NotPermitted", 12: "InvalidText", 13: "NoCmap", 14: "BitmapsAlone", 15: "Overfull" };
    await watched(async () => {
        const it = await load(wasm), font = it.open(TTF), line = new it.PdfText(TTF), at = { coordinates: { wght: 1 } };
        const calls = [() => it.subset(TTF, []), () => it.embed(TTF, []), () => font.subset([], at), () => font.embed([], at), () => it.glyphsOf(TTF, "A"), () => font.pdfFont([]), () => it.codesOf([]), () => it.advances(TTF, []),
            () => new it.PdfText(TTF), () => line.run([]), () => line.shaped("", []), () => line.font()];
        for (status of [...Array(20).keys(), 99].slice(1)) {
            const kind = kinds[status] ?? "SubsetterError";
            const text = status === 16 ? "numbers of objects must be distinct and above 0, and as many as there are parts (partCount)" : kinds[status] ? texts[status] ?? "too many codes" : `status ${status}`;
            for (const call of calls) assert.equal(throws(call, status === 16 ? RangeError : library[kind], status).message.split(": ")[0], text);
        }
    }, change);
});

test("ways to load", async () => {
    const module = await WebAssembly.compile(wasm), copy = wasm.slice(), wanted = subsetter.subset(FONT, [2]);
    const response = (status = 200) => new Response(copy, { status, headers: { "content-type": "application/wasm" } });
    const data = `data:application/wasm;base64,${Buffer.from(wasm).toString("base64")}`, file = new URL("../../bindings/js/out/subsetter.wasm", import.meta.url);
    for (const source of [module, copy, copy.buffer, new DataView(copy.buffer), response(), new Response(copy), data, new URL(data), file, file.href]) {
        const { subset, open } = await load(source);
        assert.deepEqual([subset(FONT, [2]), open(FONT).subset([2])], [wanted, wanted]);
    }
    const empty = Uint8Array.of(0, 97, 115, 109, 1, 0, 0, 0);
    const wrong = [[new Uint8Array([1, 2]), WebAssembly.CompileError], [response(404), Error], [response(500), Error], [empty, TypeError], [await WebAssembly.compile(empty), TypeError]];
    for (const source of [5, 0, null, true, false, "", {}, [], () => {}, new WebAssembly.Instance(module, {})]) wrong.push([source, TypeError]);
    for (const [source, kind] of wrong) await assert.rejects(load(source), (error) => error.constructor === kind, `${source}`);
    // An address goes to `fetch` as it is.
    const { fetch } = globalThis;
    try {
        for (const source of ["part/of/an/address.wasm", new URL("https://example.org/subsetter.wasm")]) {
            globalThis.fetch = async (...words) => (assert.deepEqual(words, [source]), response());
            assert.deepEqual((await load(source)).subset(FONT, [2]), wanted);
            globalThis.fetch = async () => response(403);
            await assert.rejects(load(source), /: 403$/);
        }
    } finally {
        globalThis.fetch = fetch;
    }
});

test("the module twice: each has errors and fonts of its own", async () => {
    const other = await import("../../bindings/js/subsetter.mjs?twice"), it = await other.load(wasm), opened = [subsetter.open(TTF), it.open(TTF)];
    for (const font of opened) assert.deepEqual(font.subset([2, 1]), subsetter.subset(TTF, [2, 1]));
    throws(() => it.subset(new Uint8Array(), []), other.UnknownKind, "the other's error");
    throws(() => subsetter.subset(new Uint8Array(), []), library.UnknownKind, "its own error");
    opened[0].close();
    assert.deepEqual(opened[1].subset([2, 1]), subsetter.subset(TTF, [2, 1]));
});
