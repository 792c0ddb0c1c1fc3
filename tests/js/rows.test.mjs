import assert from "node:assert/strict";
import { test } from "node:test";
import { bytesOf, entryOf, ERRORS, numbersOf, readPdfRows, readRows, textOf, wrongPdfRows, wrongRows } from "./rows.mjs";
import { changed, latin1, library, made, path, pdfTable, read, subsetter, table, throws, wasm } from "./support.mjs";

test("each worked row", () => {
    assert.ok(readRows(table).rows.length > 450);
    assert.deepEqual(wrongRows(library, subsetter, table), []);
});

test("each row for PDF", () => {
    const rows = readPdfRows(pdfTable), files = Object.fromEntries(rows.map(({ font }) => [font, made(font)]));
    assert.equal(rows.length, pdfTable.match(/^row /gm).length);
    assert.ok(rows.length >= 20);
    assert.deepEqual(wrongPdfRows(library, subsetter, pdfTable, files), []);
});

/** The words of each row of a table, with `{x*3}` as xxx. */
function rowsOf(name) {
    const text = latin1(made(name)).replace(/\{(.*?)\*(\d+)\}/g, (_, part, count) => part.repeat(count)), rows = text.match(/^[^#\n].*/gm);
    assert.ok(rows.length > 10, name);
    return rows.map((row) => row.split(" "));
}

/** What a call returns, or what is said of its error. */
function outcome(call, said = ({ name }) => name) {
    try {
        return call();
    } catch (error) {
        return said(error);
    }
}

test("each row of kinds of pictures", () => {
    for (const [, row, digits, face, list, status, kinds, pdf] of rowsOf("kinds.txt")) {
        const font = bytesOf(digits), glyphs = numbersOf(list), index = Number(face), wanted = status === "0" ? kinds.replace(/^-$/, "") : ERRORS[status];
        const given = new Set(glyphs).size < glyphs.length ? glyphs : new Set(glyphs);
        for (const call of [() => subsetter.kindsOf(font, given, { index }), () => subsetter.open(font, { index }).kindsOf(glyphs)])
            assert.equal(outcome(() => call().map((it) => it.join("+")).join(",")), wanted, row);
        if (pdf !== "0") assert.equal(outcome(() => subsetter.pdfFont(font, [{ glyph: 0, text: "" }], { index })), ERRORS[pdf], row);
    }
});

test("each row of characters", () => {
    for (const [, row, name, face, missing, ...words] of rowsOf("characters.txt")) {
        const entries = words.map(entryOf), text = entries.map((it) => it.text).join(""), font = made(name), index = Number(face) || undefined;
        const places = numbersOf(missing).map((place) => [...text].slice(0, place).join("").length);
        for (const call of [() => subsetter.glyphsOf(font, text, { index }), () => subsetter.open(font, { index }).glyphsOf(text)]) {
            if (missing === "NoCmap") throws(call, library.NoCmap, row);
            else assert.deepEqual([call(), call().missing], [entries.filter(({ glyph }) => glyph >= 0), places], row);
        }
    }
});

test("each row of reasons", () => {
    const choices = { "tokens=5": { limits: { tokens: 5 } }, "names=no": { names: false }, "most_bytes=9": { limits: { mostBytes: 9 } } };
    const names = { pdf_font: "pdfFont", glyphs_of: "glyphsOf" };
    for (const [, call, file, face, change, weight, option, glyph, , ...message] of rowsOf("reasons.txt")) {
        const font = changed(file, change), name = names[call] ?? call.replace("_at", ""), index = Number(face) || undefined, options = { ...choices[option] };
        if (call.endsWith("_at") || weight !== "-") options.coordinates = weight === "-" ? {} : { wght: Number(weight) };
        const glyphs = glyph === "all" ? Array.from({ length: 65536 }, (_, it) => it) : [Number(glyph)];
        const given = { pdf_font: glyphs.map((it) => ({ glyph: it, text: "" })), glyphs_of: "A" }[call] ?? glyphs;
        // (after it is what the caller can do)
        const said = ({ message }) => message.replace(/: (if you hold|coordinates: ).*/, "");
        const asked = () => name === "text" ? new subsetter.PdfText(font, { index, ...options }) : subsetter[name](font, given, { index, ...options });
        assert.equal(outcome(() => asked() && "-", said), message.join(" "));
        if (name !== "text") assert.equal(outcome(() => subsetter.open(font, { index })[name](given, options) && "-", said), message.join(" "));
    }
});

/** An item, or one for each of FIRST..LAST. */
function itemsOf(word) {
    const [glyph, text, places] = word.split(":"), [first, last] = text.split("..").map((it) => parseInt(it, 16));
    const [xAdvance, yAdvance = 0, xOffset = 0, yOffset = 0] = places.split(",").map(Number);
    const texts = last ? Array.from({ length: last - first + 1 }, (_, i) => String.fromCodePoint(first + i)) : [text === "-" ? undefined : textOf(text)];
    return texts.map((it) => ({ glyph: Number(glyph), text: it, xAdvance, yAdvance, xOffset, yOffset }));
}

test("each row of runs", () => {
    const rows = rowsOf("runs.txt"), texts = rows.flatMap(([kind], i) => (kind === "text" ? [i] : []));
    texts.forEach((first, i) => {
        const [, font, choice, widths, glyphs] = rows[first], order = choice === "logical" ? "logical" : "visual";
        const [name, weight] = font.split("@"), coordinates = weight ? { wght: Number(weight) } : {};
        const text = new subsetter.PdfText(made(name), { coordinates, vertical: choice === "vertical", order, ownGlyphs: choice === "own", rights: "held" });
        for (const [, direction, ...words] of rows.slice(first + 1, texts[i + 1])) {
            const end = words.indexOf("="), wanted = words.slice(end + 1).join(" "), run = () => text.run(words.slice(0, end).flatMap(itemsOf), { direction });
            const found = outcome(() => [run()].map((it) => `${it.advance} ${latin1(it).replaceAll("\n", "~")}`)[0]);
            assert.ok(wanted === "*" || found === wanted, `${found.slice(0, 200)}, and not ${wanted.slice(0, 200)}`);
        }
        const { widths: found, cidToGidMap } = text.font();
        assert.deepEqual([[...found], [...cidToGidMap ?? []]], [numbersOf(widths), numbersOf(glyphs).flatMap((it) => [it >> 8, it & 255])]);
    });
});

test("the module needs nothing, names no folder of this machine, and has the version", async () => {
    assert.deepEqual(WebAssembly.Module.imports(await WebAssembly.compile(wasm)), []);
    assert.ok(!Buffer.from(wasm).includes(path("").slice(0, -1)));
    assert.equal(subsetter.version, read("VERSION").toString().split("\n")[0]);
});
