/** What the tests in Node share: files, fonts that are made here, and modules with less memory or with other exports. */
import assert from "node:assert/strict";
import { readFileSync } from "node:fs";
import { fileURLToPath } from "node:url";
import * as library from "../../bindings/js/subsetter.mjs";
import { readRows } from "./rows.mjs";

export const path = (name) => fileURLToPath(new URL(`../../${name}`, import.meta.url));
export const read = (name) => readFileSync(path(name));
export const [table, pdfTable] = ["subset", "pdf"].map((name) => read(`crates/dev_rows/data/${name}.txt`).toString());
/** Where a font of the rows for PDF is: the crate's package has those of TrueType. */
export const place = (name) => `${name.endsWith("ttf") ? "bindings/rust/tests" : "crates/dev_rows"}/data/${name}`;
export const made = (name) => new Uint8Array(read(place(name)));
/** A made font with other bytes in a table (`OS/2+8=0002`), or with another tag (`glyf=sbix`). */
export function changed(name, change) {
    const font = Buffer.from(made(name)), [place, bytes = ""] = change.split("="), record = font.indexOf(place.slice(0, 4));
    if (bytes) font.set(Buffer.from(bytes, place[4] ? "hex" : "latin1"), place[4] ? font.readUInt32BE(record + 8) + Number(place.slice(5)) : record);
    return font;
}
export const wasm = new Uint8Array(read("bindings/js/out/subsetter.wasm"));
export const subsetter = await library.load(wasm);
export const { fonts, texts } = readRows(table);
export const latin1 = (bytes) => Buffer.from(bytes).toString("latin1");
export { library };

/** That a call throws an error of exactly this class: the error. */
export function throws(call, kind, what) {
    try {
        call();
    } catch (error) {
        assert.equal(error.constructor, kind, `${what}: ${error}`);
        return error;
    }
    assert.fail(`${what}: nothing is thrown`);
}

/** A font of `count` glyphs of `size` bytes each (a multiple of 4), whose widths are 500, 501, and so on. */
export function plainFont(count, size) {
    const [glyf, head, hhea, hmtx, loca, maxp] = [count * size, 54, 36, 4 * count, 4 * count + 4, 32].map((length) => Buffer.alloc(length));
    for (let glyph = 0; glyph < count; glyph++) {
        for (let i = 1; i < size; i++) glyf[glyph * size + i] = i === 1 ? 1 : glyph * 7 + i * 13;
        loca.writeUInt32BE((glyph + 1) * size, 4 * glyph + 4);
        hmtx.writeUInt16BE(500 + glyph % 1000, 4 * glyph);
    }
    for (const [table, at, number] of [[head, 18, 1000], [head, 50, 1], [hhea, 34, count], [maxp, 0, 1], [maxp, 4, count]]) table.writeUInt16BE(number, at);
    const tables = Object.entries({ glyf, head, hhea, hmtx, loca, maxp }), parts = [Buffer.from([0, 1, 0, 0, 0, tables.length, 0, 0, 0, 0, 0, 0])];
    let at = 12 + 16 * tables.length;
    for (const [tag, { length }] of tables) {
        parts.push(Buffer.from(tag), Buffer.from(Uint32Array.of(0, at, length).buffer).swap32());
        at += Math.ceil(length / 4) * 4;
    }
    return new Uint8Array(Buffer.concat([...parts, ...tables.flatMap(([, table]) => [table, Buffer.alloc(-table.length & 3)])]));
}

/** A number as WebAssembly writes it (LEB128), and reads it: with where it ends. */
function leb(value) {
    const bytes = [];
    for (; value >= 128; value = Math.floor(value / 128)) bytes.push((value % 128) | 128);
    return [...bytes, value];
}
function lebAt(bytes, at) {
    let value = 0;
    for (let scale = 1; ; scale *= 128) {
        value += (bytes[at] & 127) * scale;
        if (bytes[at++] < 128) return [value, at];
    }
}

/** The pages of memory that a module begins with, those that it may have, and a copy of it with another maximum. */
export function memoryOf(wasm) {
    for (let at = 8; at < wasm.length; ) {
        const id = wasm[at], [size, start] = lebAt(wasm, at + 1);
        if (id === 5) {
            const [least, next] = lebAt(wasm, start + 2), [most] = lebAt(wasm, next);
            const capped = (pages) => {
                const content = [1, 1, ...leb(least), ...leb(pages)];
                return Uint8Array.from([...wasm.subarray(0, at), 5, ...leb(content.length), ...content, ...wasm.subarray(start + size)]);
            };
            return { least, most, capped };
        }
        at = start + size;
    }
    throw new Error("the module has no memory");
}

/** Runs `run` with the exports of each instance that is made meanwhile; `change` may put others in their place. */
export async function watched(run, change = (exports) => exports) {
    const { Instance, instantiate } = WebAssembly, made = [];
    const kept = (instance) => {
        const exports = change({ ...instance.exports });
        made.push(exports);
        return { exports };
    };
    WebAssembly.Instance = function (module, imports) {
        return kept(new Instance(module, imports));
    };
    WebAssembly.instantiate = async (module, imports) => kept(await instantiate(module, imports));
    try {
        await run(made);
    } finally {
        Object.assign(WebAssembly, { Instance, instantiate });
    }
}
