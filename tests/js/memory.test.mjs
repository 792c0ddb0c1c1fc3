/** The memory of the module: open fonts, memory that ends, and calls that don't come back. */
import assert from "node:assert/strict";
import { test } from "node:test";
import { fonts, latin1, library, made, memoryOf, plainFont, subsetter, throws, wasm, watched } from "./support.mjs";

const { OutOfMemory, UnknownKind, load } = library;
const TTF = made("made.ttf"), { least, capped } = memoryOf(wasm);

test("open fonts", () => {
    const sizes = [20, 300, 60, 1000, 20, 3], sources = sizes.map((count, i) => plainFont(count, 16 + 4 * i));
    const wanted = sources.map((font) => subsetter.subset(font, [2, 1])), opened = sources.map((font) => subsetter.open(font));
    const check = (what) => opened.forEach((font, i) => font && assert.deepEqual(font.subset([2, 1]), wanted[i], `font ${i}, ${what}`));
    sources.forEach((font) => font.fill(0));
    check("the sources written over");
    // Close some, and open others in their places.
    for (const [gone, other] of [[1, 4], [3, 0], [0, 1], [5, 3], [4, 5], [2, 2]]) {
        opened[gone].close();
        opened[gone].close();
        for (const call of ["subset", "embed"]) throws(() => opened[gone][call]([1]), TypeError, "a closed font");
        opened[gone] = null;
        check(`${gone} closed`);
        assert.deepEqual(subsetter.subset(plainFont(sizes[other], 16 + 4 * other), [2, 1]), wanted[other]);
        check(`${gone} closed, and another passed by`);
        opened[gone] = subsetter.open(plainFont(sizes[gone], 16 + 4 * gone));
        check(`${gone} open again`);
    }
    const empty = subsetter.open(new Uint8Array()), closing = opened[1], glyphs = function* () {
        yield 1;
        closing.close();
        yield 2;
    };
    throws(() => empty.subset([]), UnknownKind, "an empty font");
    throws(() => closing.subset(glyphs()), TypeError, "a font that its own call closes");
    opened[1] = null;
    check("after that");
    const faces = [0, 1].map((index) => subsetter.open(fonts.collection, { index }));
    faces.forEach((face, index) => assert.deepEqual(face.subset([1]), subsetter.subset(fonts.collection, [1], { index })));
    [empty, ...faces, ...opened].forEach((font) => font?.close());
});

test("a font in the gap that another left", async () => {
    const it = await load(wasm), font = plainFont(40, 16), wanted = it.subset(font, [2, 1]), room = Math.ceil(font.length / 16) * 16 - font.length;
    for (const more of [0, room, room + 1, room + 2, room + 16, room + 17]) {
        // (bytes after the last table are no part of it)
        const longer = new Uint8Array(font.length + more).fill(255);
        longer.set(font);
        const [first, between, last] = [font, font, font].map((data) => it.open(data));
        between.close();
        const all = [first, it.open(longer), last];
        for (const one of all) assert.deepEqual(one.subset([2, 1]), wanted, `a font of ${more} bytes more`);
        for (const one of all) one.close();
    }
});

test("the memory is as large after any number of calls", async () => {
    await watched(async (made) => {
        const it = await load(wasm), large = plainFont(800, 200), all = Array.from({ length: 799 }, (_, i) => i + 1), opened = it.open(large);
        const openAgain = (glyphs) => {
            const again = it.open(large);
            again.embed(glyphs);
            again.close();
        };
        openAgain(all);
        it.embed(large, all);
        const bytes = made[0].memory.buffer.byteLength;
        for (let i = 0; i < 3000; i++) {
            const some = all.slice(i % 700, (i % 700) + 1 + (i * 7) % 97);
            if (i % 50 === 0) it.subset(large, some);
            else if (i % 50 === 1) openAgain(some);
            else if (i % 3 === 0) opened.embed(some);
            else if (i % 3 === 1) opened.subset(some);
            else throws(() => it.subset(fonts.no_outlines, []), UnknownKind, "no outlines");
        }
        // A wrong argument leaves no font there.
        const mine = new Error("the caller's"), thrower = function* () {
            yield 1;
            throw mine;
        };
        const wrong = [
            [RangeError, () => it.subset(large, [70000])], [RangeError, () => it.embed(large, [1], { index: -1 })], [TypeError, () => it.embed(large, [1], { hinting: 0 })],
            [Error, () => it.subset(large, thrower())], [TypeError, () => it.glyphsOf(large, 5)], [TypeError, () => it.pdfFont(large, [{ glyph: 1, text: 5 }])],
            [RangeError, () => it.pdfFont(large, [], { tag: "abc" })], [RangeError, () => it.open(large, { index: -1 })], [TypeError, () => it.open(large, { limits: {} })],
        ];
        for (const [kind, call] of wrong) for (let i = 0; i < 100; i++) throws(call, kind, "a wrong argument");
        assert.deepEqual([made[0].memory.buffer.byteLength, made.length], [bytes, 1]);
    });
});

/** What a call returns, or null where memory runs out. */
function orNothing(call) {
    try {
        return call();
    } catch (error) {
        assert.equal(`${error.constructor === OutOfMemory} ${error}`, "true OutOfMemory: out of memory");
        return null;
    }
}

test("with any cap on the memory a call answers what it does without, or OutOfMemory", async () => {
    const small = plainFont(4, 16), large = plainFont(3000, 300), all = Array.from({ length: 2999 }, (_, i) => i + 1);
    const shown = Array.from({ length: 20000 }, (_, i) => ({ glyph: 1 + i % 9, text: String.fromCodePoint(0x4e00 + i) })), long = "AH".repeat(20000);
    const wantedSmall = subsetter.subset(small, [2]);
    const calls = (it) => {
        const font = orNothing(() => it.open(large));
        const runs = () => {
            const text = new it.PdfText(TTF);
            try {
                return [text.run(shown), text.font().toUnicode];
            } finally {
                text.close();
            }
        };
        const found = [runs, font && (() => font.subset(all)), font && (() => font.embed(all)), () => it.pdfFont(TTF, shown, { codes: "each_text" }).toUnicode, () => it.glyphsOf(TTF, long)];
        return [font, found.map((call) => (call ? orNothing(call) : null))];
    };
    const [, wanted] = calls(subsetter), refused = wanted.map(() => 0), done = wanted.map(() => 0);
    for (let pages = least + 1; pages < least + 260; pages += pages < least + 4 ? 1 : 32) {
        const it = await load(capped(pages)), first = it.open(small);
        for (let round = 0; round < 2; round++) {
            const [font, found] = calls(it);
            found.forEach((answer, i) => {
                if (answer) assert.deepEqual(answer, wanted[i], `${pages} pages, call ${i}`);
                (answer ? done : refused)[i]++;
            });
            assert.deepEqual([first.subset([2]), it.subset(small, [2])], [wantedSmall, wantedSmall], "the next calls");
            font?.close();
        }
    }
    assert.ok(Math.min(...refused, ...done) > 0, `refused ${refused}, done ${done}`);
});

test("what was made of a font is written of it once there is memory again", async () => {
    const it = await load(capped(least + 400)), shown = Array.from({ length: 5000 }, (_, i) => ({ glyph: 1 + i % 9, text: String.fromCodePoint(0x4e00 + i) }));
    const font = it.pdfFont(TTF, shown), calls = [() => latin1(font.objects(4).bytes), () => latin1(font.sheet("grid")), () => it.glyphsOf(TTF, "AH")];
    const wanted = calls.map((call) => call()), fillers = [];
    for (const size of [65536, 1024, 16]) while (orNothing(() => fillers.push(it.open(new Uint8Array(size)))));
    assert.ok(fillers.length > 100);
    for (const call of calls) throws(call, OutOfMemory, "no memory");
    fillers.forEach((one) => one.close());
    assert.deepEqual(calls.map((call) => call()), wanted);
});

test("what is loaded twice shares neither fonts nor memory", async () => {
    const module = await WebAssembly.compile(wasm), small = plainFont(40, 16), large = plainFont(3000, 300);
    await watched(async (made) => {
        const all = [await load(module), await load(module), await load(capped(least + 2))], opened = all.map((it) => it.open(small));
        const wanted = all[0].subset(small, [7, 3]), check = () => [...opened.map((font) => font.subset([7, 3])), ...all.map((it) => it.subset(small, [7, 3]))].forEach((it) => assert.deepEqual(it, wanted));
        check();
        throws(() => all[2].open(large), OutOfMemory, "no memory in one of them");
        assert.deepEqual(all[1].open(large).subset([1, 2]), subsetter.subset(large, [1, 2]));
        check();
        assert.deepEqual([made.length, new Set(made.map((it) => it.memory)).size], [3, 3]);
    });
});

test("a call that doesn't come back takes a new instance, and the open fonts move there", async () => {
    const sources = [plainFont(30, 16), plainFont(2000, 400)];
    // (where the stack ends within a call, engines throw errors of their own)
    const traps = [new WebAssembly.RuntimeError("unreachable"), new RangeError("Maximum call stack size exceeded"), new Error("too much recursion")];
    let trap = null, isFull = false;
    const change = (exports) => {
        const { memory } = exports, grow = (pages) => {
            if (isFull) throw new RangeError("WebAssembly.Memory.grow(): Unable to grow instance memory");
            return memory.grow(pages);
        };
        exports.memory = { get buffer() { return memory.buffer; }, grow };
        for (const name of Object.keys(exports).filter((it) => /^subsetter_(?!error_text)/.test(it))) {
            const call = exports[name];
            exports[name] = (...words) => {
                const answer = call(...words), thrown = trap;
                trap = null;
                if (thrown) throw thrown;
                return answer;
            };
        }
        return exports;
    };
    await watched(async (made) => {
        const it = await load(wasm), wanted = sources.map((font) => it.subset(font, [7, 3])), opened = sources.map((font) => it.open(font));
        const check = () => sources.forEach((font, i) => assert.deepEqual([opened[i].subset([7, 3]), it.subset(font, [7, 3])], [wanted[i], wanted[i]]));
        const calls = [() => opened[0].subset([1]), () => it.embed(sources[0], [1]), () => it.pdfFont(TTF, [])];
        for (const [i, thrown] of traps.entries()) {
            trap = thrown;
            throws(calls[i], thrown.constructor, "a trap");
            assert.equal(made.length, i + 1, "instances after a trap");
            if (i === 1) assert.deepEqual(it.open(sources[0]).subset([7, 3]), wanted[0]);
            check();
            assert.equal(made.length, i + 2, "instances after the next calls");
            assert.notEqual(made[i + 1].memory, made[i].memory);
        }
        // An error of the library takes none.
        throws(() => it.subset(new Uint8Array(), []), UnknownKind, "no font");
        check();
        assert.equal(made.length, 4);
        // Where there is no memory for a new instance, or for the fonts in it, the fonts wait for one.
        [trap] = traps;
        throws(calls[0], WebAssembly.RuntimeError, "a trap");
        const { Instance } = WebAssembly;
        WebAssembly.Instance = function () {
            throw new RangeError("WebAssembly.Instance(): Out of memory");
        };
        for (const call of [calls[0], () => it.open(sources[0])]) throws(call, OutOfMemory, "no new instance");
        WebAssembly.Instance = Instance;
        isFull = true;
        for (const call of [calls[0], () => it.open(sources[0])]) throws(call, OutOfMemory, "a new instance without memory");
        isFull = false;
        check();
    }, change);
});

test("where the engine's stack ends within a call the next is as good as any", async () => {
    const it = await load(wasm), source = plainFont(30, 16), wanted = it.subset(source, [7, 3]), opened = it.open(source);
    let ended = 0, got = null;
    const down = () => {
        try {
            down();
        } catch (error) {
            if (!(error instanceof RangeError)) throw error;
        }
        // On the way back there is more and more of the stack.
        if (got || ended > 300) return;
        try {
            got = opened.subset([7, 3]);
        } catch (error) {
            // (where there is no stack for a new instance there seems to be no memory for it)
            if (!(error instanceof RangeError || error instanceof OutOfMemory)) throw error;
            ended++;
        }
    };
    down();
    assert.ok(ended > 0);
    if (got) assert.deepEqual(got, wanted);
    assert.deepEqual([opened.subset([7, 3]), it.subset(source, [7, 3])], [wanted, wanted]);
});
