/** What the calls for PDF take and refuse, and what an answer is besides what the rows have of it. */
import assert from "node:assert/strict";
import { execFileSync } from "node:child_process";
import { mkdtempSync, readFileSync, writeFileSync } from "node:fs";
import { tmpdir } from "node:os";
import { join } from "node:path";
import { test } from "node:test";
import { changed, fonts, latin1, library, made, subsetter, throws } from "./support.mjs";

const { CFFError, InvalidText, MalformedFont, MissingCharacters, NotPermitted, OverflowError, UnknownKind } = library;
const TTF = made("made.ttf"), SHOWN = [{ glyph: 1, text: "A" }, { glyph: 5, text: "fi" }, { glyph: 1, text: "a" }];

test("texts", () => {
    const opened = subsetter.open(TTF);
    assert.deepEqual(subsetter.pdfFont(TTF, opened.glyphsOf("AH\ufb01\u{1f600}\xc1zA")).codes, [1, 2, 3, 4, 5, 0, 1]);
    assert.deepEqual(subsetter.pdfFont(TTF, []).codes, []);
    throws(() => opened.glyphsOf("\u{1f600}\tz", { missing: "error" }), MissingCharacters, "missing characters");
    assert.equal(subsetter.glyphsOf(TTF, "A\xad", { missing: "error" }).length, 1);
    for (const wrong of ["\ud800", "A\udfff", "\ud83dA"]) {
        for (const call of [() => subsetter.glyphsOf(TTF, wrong), () => opened.glyphsOf(wrong), () => subsetter.pdfFont(TTF, [{ glyph: 1, text: wrong }])]) throws(call, InvalidText, "a surrogate");
    }
    throws(() => subsetter.glyphsOf(TTF.slice(0, 40), "A"), MalformedFont, "a cut font");
    throws(() => subsetter.glyphsOf(new Uint8Array(2), "A"), UnknownKind, "no font");
    subsetter.pdfFont(TTF, [{ glyph: 1, text: "a".repeat(256) }]);
    throws(() => subsetter.pdfFont(TTF, [{ glyph: 1, text: "a".repeat(257) }]), InvalidText, "a longer text");
    for (const wrong of [5, null, undefined, ["A"]]) for (const call of [() => subsetter.glyphsOf(TTF, wrong), () => opened.glyphsOf(wrong)]) throws(call, TypeError, `${wrong}`);
    opened.close();
    for (const call of [() => opened.glyphsOf("A"), () => opened.pdfFont([])]) throws(call, TypeError, "a closed font");
});

test("choices", () => {
    const plain = subsetter.pdfFont(TTF, SHOWN), opened = subsetter.open(TTF);
    assert.equal(subsetter.pdfFont(TTF, SHOWN, { tag: "ZYXWVU" }).descriptor.fontName, "ZYXWVU+Made-Regular");
    assert.deepEqual(subsetter.pdfFont(TTF, new Set(SHOWN), { codes: "each_text" }).codes, [1, 2, 3]);
    assert.deepEqual(subsetter.pdfFont(TTF, SHOWN, { codes: "eachText", rights: "asSaid", limits: { bytes: 99999 } }).isSaid, [true, true, true]);
    assert.deepEqual(plain.textIsMapped, [true, true, false]);
    assert.deepEqual(plain.program, subsetter.embed(TTF, [1, 5], { names: false, glyphNames: false }).font);
    throws(() => subsetter.pdfFont(TTF, SHOWN, { limits: { bytes: 100 } }), OverflowError, "a bound");
    throws(() => subsetter.pdfFont(made("made_version_1.otf"), SHOWN, { limits: { tokens: 1 } }), CFFError, "a limit");
    for (const [limits, error] of [[{ depth: 2, tokens: 3 }], [{ depth: 1 }, CFFError], [{ tokens: 2 }, CFFError], [{ bytes: 10 }, OverflowError]]) {
        const deep = subsetter.open(fonts.one_call_with_metrics);
        for (const call of [() => deep.pdfFont([], { limits }), () => subsetter.pdfFont(fonts.one_call_with_metrics, [], { limits })]) error ? throws(call, error, "limits") : call();
    }
    const lengths = [{}, { hinting: true }, { hinting: false }].map((options) => subsetter.pdfFont(fonts.full, [], options).program.length);
    assert.ok(lengths[0] === lengths[1] && lengths[1] > lengths[2]);
    const wrong = [{ tag: "ABCDE" }, { tag: "ABCDEf" }, { tag: "ABCDEF\n" }, { tag: "" }].map((it) => [RangeError, it]);
    for (const [name, value] of [["program", "opentype"], ["codes", "source"], ["bounds", "kept"], ["rights", "held"]]) {
        for (const text of ["", value.toUpperCase(), `${value} `, `${value}\n`]) wrong.push([RangeError, { [name]: text }]);
        for (const it of [null, 0, 1, true, [value]]) wrong.push([TypeError, { [name]: it }]);
    }
    for (const it of [null, 0, 1, "yes"]) wrong.push([TypeError, { vertical: it }], [TypeError, { cidSet: it }]);
    wrong.push([TypeError, { tag: 5 }], [TypeError, { tag: null }], [TypeError, { names: false }], [TypeError, 5], [TypeError, null]);
    for (const [kind, options] of wrong) {
        throws(() => subsetter.pdfFont(TTF, SHOWN, options), kind, JSON.stringify(options));
        throws(() => opened.pdfFont(SHOWN, options), kind, JSON.stringify(options));
    }
});

test("entries, numbers and layouts", () => {
    const entries = [[TypeError, 5], [TypeError, "A"], [TypeError, null], [TypeError, [5]], [TypeError, [null]], [TypeError, [{ glyph: 1 }]], [TypeError, [{ text: "A" }]],
        [RangeError, [{ glyph: 65536, text: "" }]], [RangeError, [{ glyph: 0.5, text: "" }]], [TypeError, [{ glyph: 1, text: 65 }]], [TypeError, [{ glyph: null, text: "" }]]];
    for (const [kind, list] of entries) throws(() => subsetter.pdfFont(TTF, list), kind, JSON.stringify(list));
    const font = subsetter.pdfFont(TTF, SHOWN);
    assert.ok(latin1(font.objects(2 ** 32 - 8).bytes).startsWith("4294967288 0 obj"));
    assert.equal(throws(() => font.objects(2 ** 32 - 7), OverflowError, "no number left").message, "overflow occurred: the numbers from 4294967289 on don't fit 32 bits");
    for (const [kind, first] of [[RangeError, 0], [RangeError, 2 ** 32], [RangeError, 1.5], [TypeError, "4"], [TypeError, null], [TypeError, undefined]]) throws(() => font.objects(first), kind, first);
    for (const [kind, layout] of [[RangeError, "page"], [RangeError, ""], [TypeError, 1], [TypeError, null]]) throws(() => font.sheet(layout), kind, layout);
    assert.deepEqual(font.sheet(), font.sheet("line"));
    assert.ok(font.codes.every((it) => latin1(font.sheet()).includes(`\n${font.string([it])} Tj\n`)) && font.string([10, 0xfb23]) === "<000AFB23>");
    for (const [kind, codes] of [[RangeError, [65536]], [TypeError, ["1"]], [TypeError, 5], [TypeError, "A"]]) throws(() => font.string(codes), kind, codes);
});

test("permissions, by fsType of OS/2", () => {
    const wanted = [["0004", "previewAndPrint", true, true], ["0100", "installable", false, true], ["0200", "installable", true, false], ["0302", "restricted", false, false]];
    for (const [number, usage, subsetting, outlines] of wanted) {
        const font = changed("made.ttf", `OS/2+8=${number}`);
        assert.deepEqual(subsetter.pdfFont(font, SHOWN, { rights: "held" }).permission, { usage, subsetting, outlines });
        if (usage === "restricted" || !subsetting || !outlines) throws(() => subsetter.pdfFont(font, SHOWN), NotPermitted, number);
        else subsetter.pdfFont(font, SHOWN, { rights: "from_font" });
    }
});

test("parts", () => {
    const font = subsetter.pdfFont(TTF, SHOWN, { codes: "each_text", cidSet: true, vertical: true }), { bytes } = font.objects(4);
    const numbers = Array.from({ length: font.partCount }, (_, i) => i + 4), parts = font.parts(numbers);
    assert.deepEqual(parts.map((it) => it.role), ["font", "cid_font", "descriptor", "program", "to_unicode", "cid_set", "encoding"].filter((it) => it !== "encoding" || font.encoding));
    assert.equal(parts.map((it) => `${it.number} 0 obj\n${latin1(it.value)}\nendobj\n`).join(""), latin1(bytes));
    const strings = parts.flatMap((it) => it.strings.map(([start, end]) => latin1(it.entries.slice(start, end))));
    assert.deepEqual(new Set(strings), new Set(["(Adobe)", "(Identity)"]));
    for (const wrong of [[1, 2], numbers.map(() => 7), numbers.map((_, i) => i), numbers.map(() => 2 ** 32), numbers.map(() => 1.5)]) throws(() => font.parts(wrong), RangeError, `${wrong}`);
    for (const filter of ["FlateDecode", "/Fl\u0141te"]) throws(() => font.parts(numbers, { filter }), RangeError, filter);
    const packs = [async (it) => it, () => "text", () => {}, (it) => it.buffer].map((pack) => [numbers, { pack }]);
    for (const wrong of [[5], [numbers, { pack: 5 }], [numbers, { compress: true }], [numbers, { filter: 5 }], ...packs]) throws(() => font.parts(...wrong), TypeError, "no parts");
});

const DEJAVU = readFileSync("/usr/share/fonts/truetype/dejavu/DejaVuSans.ttf");

/** What Poppler and MuPDF have of the pages of a PDF. (MuPDF knows no direction.) */
function textsOf(pdf) {
    const path = join(mkdtempSync(join(tmpdir(), "subsetter-")), "it.pdf"), said = (...words) => execFileSync(...words, { encoding: "utf8" });
    writeFileSync(path, pdf);
    assert.match(said("qpdf", ["--check", path]), /No syntax or stream encoding errors found/);
    const pages = (text) => text.replace(/[\u202a-\u202e]/g, "").split("\f").map((it) => it.trim()).filter(Boolean);
    return [said("pdftotext", ["-enc", "UTF-8", path, "-"]), said("mutool", ["draw", "-q", "-F", "txt", path])].map(pages);
}

test("runs of shaped text", () => {
    const rows = ([g, cl, ax, dx = 0]) => ({ g, cl, ax, ay: 0, dx, dy: 0, flags: 0 }), text = new subsetter.PdfText(DEJAVU, { order: "visual" });
    // What hb-shape has of two lines.
    const latin = [[82, 0, 1253], [5044, 1, 1980], [70, 4, 1126], [72, 5, 1260], [3, 6, 651], [84, 7, 1300], [693, 7, 0, -165], [91, 9, 1212]].map(rows);
    const arabic = [[5365, 5, 1168], [3, 4, 651], [1390, 3, 1268], [5366, 1, 1222], [5293, 0, 1716]].map(rows);
    const said = ["office q\u0304x", "\u0633\u0644\u0627\u0645 \u0644\u0627"], runs = [text.shaped(said[0], latin, { size: 36 }), text.shaped(said[1], new Set(arabic), { direction: "rtl", size: 36 })];
    const lines = runs.map(latin1), font = text.font({ hinting: false, cidSet: false }), sheet = text.sheet(new Set(runs), { hinting: false });
    assert.deepEqual(textsOf(sheet), [said, [said[0], [...said[1]].reverse().join("")]]);
    // A page is as long as its run.
    assert.deepEqual([...runs.map((it) => it.advance), ...Array.from(latin1(sheet).matchAll(/MediaBox \[0 0 (\d+) 144\]/g), (it) => Number(it[1]))], [4288, 2942, 227, 178]);
    for (const wrong of [runs[0], lines, [sheet], [5], null]) throws(() => text.sheet(wrong), TypeError, "no runs");
    assert.throws(() => text.sheet([text.run([])]), { message: "the size of a run is 12, and 36 on a sheet" });
    assert.throws(() => font.sheet(), { message: "the font of a PdfText has no entries: PdfText.sheet shows runs" });
    assert.ok(font.cidToGidMap.length === 2 * font.glyphCount && font.parts([9, 8, 7, 6, 5, 4]).some(({ role }) => role === "cid_to_gid_map"));
    const items = [{ glyph: 82, text: "o" }, { glyph: 5044, text: "ffi" }, { glyph: 70, text: "c" }, { glyph: 72, text: "e", xAdvance: 1260 }];
    assert.deepEqual(text.run(items), text.shaped("office", latin.slice(0, 4)));
    assert.deepEqual([text.unitsPerEm, text.advances([82, 3])], [2048, [612, 318]]);
    // The numbers count UTF-16 units.
    const three = [0, 1, 3].map((cl) => ({ ...latin[0], cl }));
    assert.deepEqual(text.shaped("\xe9\u{1d4b3}a", three), text.run(["\xe9", "\u{1d4b3}", "a"].map((it) => ({ glyph: 82, text: it }))));
    const columns = new subsetter.PdfText(DEJAVU, { vertical: true });
    const column = columns.run([items[0]], { size: 36 });
    assert.deepEqual([latin1(column), column.advance, latin1(columns.sheet([column])).includes("/MediaBox [0 0 144 108]")], ["[<0001>]TJ\n", -1000, true]);
    assert.ok(columns.font().columns && throws(() => columns.run([], { direction: "ltr" }), RangeError, "a direction"));
    text.close();
    for (const call of [() => text.run([]), () => text.shaped("", []), () => text.font(), () => text.sheet([]), () => text.advances([1])]) throws(call, TypeError, "a closed text");
});

test("runs that are refused", () => {
    const text = new subsetter.PdfText(TTF, { coordinates: {}, limits: {} }), run = (...items) => text.run(items), one = { g: 1, cl: 0, ax: 9, ay: 0, dx: 0, dy: 0 };
    run({ glyph: 1, text: "A" });
    const wanted = text.font().toUnicode, wrong = [
        [MalformedFont, () => run({ glyph: 12, text: "A" })],
        [MalformedFont, () => text.advances([12])], [RangeError, () => run({ glyph: 1, text: "A", xOffset: 2 ** 31 })], [RangeError, () => text.run([], { size: -1 })],
        [RangeError, () => text.run([], { direction: "ttb" })], [TypeError, () => text.run([], { size: "12" })], [TypeError, () => text.run([], { order: "logical" })],
        [TypeError, () => text.run("A")], [TypeError, () => run("A")], [TypeError, () => run({ glyph: 1, text: "A", xAdvanse: 9 })], [TypeError, () => run({ glyph: 1, text: null })], [TypeError, () => text.shaped(["A"], [one])],
        [TypeError, () => text.shaped("A", [{ glyph: 1, cluster: 0 }])], [TypeError, () => text.font({ codes: "source" })], [TypeError, () => new subsetter.PdfText(TTF, { tag: "ABCDEF" })],
        [RangeError, () => new subsetter.PdfText(TTF, { order: "reading" })], [UnknownKind, () => new subsetter.PdfText(new Uint8Array(2))],
    ];
    for (const [kind, call] of wrong) throws(call, kind, `${call}`);
    const far = { glyph: 1, text: "A", xAdvance: 2 ** 31 - 1, xOffset: 2 ** 31 - 1 }, long = "a text that needs an ActualText has more than 16382 UTF-16 units";
    const explained = [
        ["the first item continues a cluster, as it has no text", () => run({ glyph: 1 })], ["U+D800 is an unpaired surrogate", () => run({ glyph: 1, text: "\ud800" })],
        ["glyph 12: the font's glyphs are 0 to 11", () => run({ glyph: 12, text: "A", xAdvance: 9 })], ["yAdvance is 9, and 0 in horizontal text", () => run({ glyph: 1, text: "A", yAdvance: 9 })],
        ["cluster 0 comes after cluster 1, and direction is ltr", () => text.shaped("AB", [{ ...one, cl: 1 }, one])], ["ay is 9, and 0 in horizontal text", () => text.shaped("A", [{ ...one, ay: 9 }])],
        ["cluster 1 comes after cluster 0, and direction is rtl", () => text.shaped("AB", [one, { ...one, cl: 1 }], { direction: "rtl" })],
        ["cluster 1 isn't where a character begins in a text of 3 units", () => text.shaped("\u{1d4b3}A", [one, { ...one, cl: 1 }])],
        ["a glyph or the pen is further away than 32 bits count", () => run(far, far, far)], [long, () => run({ glyph: 0, text: "A".repeat(16383) })],
        [long, () => text.shaped(`A${"\u{1d4b3}".repeat(8192)}`, [one, { ...one, g: 0, cl: 1 }])],
    ];
    for (const [message, call] of explained) assert.equal(throws(call, InvalidText, message).message, `invalid text: ${message}`);
    for (const vertical of [false, true]) {
        const error = throws(() => new subsetter.PdfText(changed("made.ttf", "maxp+4=0000"), { vertical }).run([{ glyph: 9, text: "H" }]), InvalidText, "more outlines than maxp counts");
        assert.equal(error.message, "invalid text: glyph 9: the font has no glyph");
    }
    const shaped = wrong.find(([, call]) => `${call}`.includes("cluster"))[1];
    assert.match(throws(shaped, TypeError, "shaped").message, /with g, cl, ax, ay, dx and dy, as harfbuzzjs has them/);
    assert.deepEqual(text.font().toUnicode, wanted);
});

test("entries that are blank", () => {
    const font = made("made_colour.ttf"), shown = [[1, "A"], [11, "B"], [10, "C"], [11, "B"]].map(([glyph, text]) => ({ glyph, text }));
    assert.deepEqual([subsetter.pdfFont(font, shown).unseen, subsetter.pdfFont(TTF, shown).unseen, new subsetter.PdfText(font).font().unseen], [[1, 3], [], []]);
    assert.deepEqual(subsetter.kindsOf(font, [10, 11]), [["svg", "outline"], ["svg", "empty"]]);
});

test("codes and advances without a font", () => {
    for (const codes of [undefined, "consecutive", "source", "each_text"]) assert.deepEqual(subsetter.codesOf(SHOWN, codes), subsetter.pdfFont(TTF, SHOWN, { codes }).codes);
    const variable = made("made_variable.ttf"), coordinates = { wght: 650, wgth: 1 }, font = subsetter.pdfFont(variable, SHOWN, { coordinates });
    const found = { unitsPerEm: 2048, widths: [1466, 1139, 1466], heights: [2048, 2048, 2048] };
    for (const it of [subsetter.advances(variable, [1, 5, 1], { coordinates }), subsetter.open(variable).advances([1, 5, 1], { coordinates, limits: {} })]) assert.deepEqual(it, found);
    assert.deepEqual([font.unitsPerEm, font.unknownAxes, font.cids.map((cid) => font.exactWidths[cid])], [2048, ["wgth"], [1466, 1139, 1466]]);
    throws(() => subsetter.codesOf([{ glyph: 1, text: "\ud800" }]), InvalidText, "no text");
    throws(() => subsetter.codesOf(SHOWN, "cids"), RangeError, "a kind");
    throws(() => subsetter.advances(TTF, [999]), MalformedFont, "no glyph");
    throws(() => subsetter.advances(TTF, [1], { small: true }), TypeError, "an option");
});

test("what is changed in an answer is written nowhere", () => {
    const shown = SHOWN.map((it) => ({ ...it })), font = subsetter.pdfFont(TTF, shown, { codes: "each_text", cidSet: true, vertical: true });
    const wanted = [font.objects(4), font.sheet(), font.sheet("grid")];
    shown.push({ glyph: 9, text: "H" });
    for (const name of ["program", "toUnicode", "encoding", "cidSet", "codes", "cids", "widths", "textIsMapped"]) font[name].fill(0);
    font.descriptor.flags = 7;
    font.objects(4).bytes.fill(0);
    for (let i = 0; i < 20; i++) subsetter.embed(TTF, [1, 2, 3, i % 9]);
    assert.deepEqual([font.objects(4), font.sheet(), font.sheet("grid")], wanted);
    const plain = subsetter.pdfFont(TTF, SHOWN);
    font.close();
    for (const call of [() => font.objects(4), () => font.sheet(), () => font.parts([1])]) throws(call, TypeError, "a closed font");
    assert.ok(!["columns", "defaultColumn", "encoding", "encodingName", "cidSet"].some((name) => name in plain));
});
