/** The heap, bindings/js/module/heap.rs, by itself (heap.rs). */
import assert from "node:assert/strict";
import { test } from "node:test";
import { memoryOf, read } from "./support.mjs";

const PAGE = 65536, BASE = 2 ** 21, heap = new Uint8Array(read("bindings/js/out/heap.wasm"));
const { instance } = await WebAssembly.instantiate(heap), { memory, heap_start, test_alloc, test_realloc, test_dealloc } = instance.exports;

/** Numbers that look random, from 0 below `limit`, the same in each run (Park and Miller). */
function randomOf(seed) {
    return (limit) => (seed = (seed * 16807) % 2147483647) % limit;
}

test("blocks never overlap, keep what is in them, and lie at 16", () => {
    const random = randomOf(1), live = [];
    heap_start(BASE);
    // (Rust asks for no block of 0 bytes)
    const size = () => 1 + [random(70), random(2000), 2 ** random(16), 2 ** random(16) + 1, random(100000)][random(5)];
    const holds = ({ at, mark }, size, what) => assert.ok(new Uint8Array(memory.buffer, at, size).every((it) => it === mark), `${what}: a block of ${size} bytes was written over`);
    const add = (at, size) => {
        assert.ok(at % 16 === 0 && at >= BASE && at + size <= memory.buffer.byteLength, `a block of ${size} bytes at ${at}`);
        live.push({ at, size, mark: 1 + random(255) });
        new Uint8Array(memory.buffer, at, size).fill(live.at(-1).mark);
    };
    for (let i = 0; i < 6000; i++) {
        const choice = live.length === 0 ? 0 : random(live.length > 60 ? 4 : 3), wanted = size();
        if (choice === 0) {
            add(test_alloc(wanted, 8), wanted);
            continue;
        }
        const [old] = live.splice(random(live.length), 1);
        if (choice === 1) {
            const at = test_realloc(old.at, old.size, wanted);
            holds({ ...old, at }, Math.min(old.size, wanted), "realloc");
            add(at, wanted);
        } else {
            holds(old, old.size, "dealloc");
            test_dealloc(old.at, old.size);
        }
    }
    live.forEach((block) => holds(block, block.size, "at the end"));
});

test("what was given back is taken again", () => {
    heap_start(BASE);
    const random = randomOf(2), sizes = Array.from({ length: 200 }, () => 1 + random(50000));
    const round = () => {
        sizes.map((size) => test_alloc(size, 8)).forEach((at, i) => test_dealloc(at, sizes[i]));
        test_dealloc(test_realloc(test_alloc(30000, 8), 30000, 70000), 70000);
    };
    round();
    const end = memory.buffer.byteLength;
    for (let i = 0; i < 2000; i++) round();
    assert.equal(memory.buffer.byteLength, end);
});

test("what can't be had is null, and changes nothing", () => {
    for (const size of [2 ** 31 - 2 ** 20, 2 ** 31 - 8]) {
        heap_start(BASE);
        assert.equal(test_alloc(size, 8), 0);
        const at = test_alloc(100, 8), bytes = new Uint8Array(memory.buffer, at, 100).fill(9);
        assert.equal(test_realloc(at, 100, size), 0);
        assert.ok(bytes.length === 100 && bytes.every((it) => it === 9));
        test_dealloc(at, 100);
        assert.equal(test_alloc(100, 8), at);
    }
    for (const alignment of [32, 64, 65536]) assert.equal(test_alloc(100, alignment), 0);
    for (const alignment of [1, 2, 4, 8, 16]) assert.notEqual(test_alloc(100, alignment), 0);
    for (const size of [16, 65520, 65536, 70000, 200000]) {
        heap_start(2 ** 32 - PAGE);
        assert.equal(test_alloc(size, 8), 0, `a block of ${size} bytes near the end of all addresses`);
    }
});

/** How far apart the sizes of blocks are that may serve for `bytes` bytes: 16 up to 64, and then a quarter of the power of two below. */
function stepOf(bytes) {
    let power = 64;
    while (2 * power < bytes) power *= 2;
    return bytes <= 64 ? 16 : power / 4;
}

test("a block serves for each request of its size, and for no other", () => {
    const all = Array.from({ length: 1100 }, (_, i) => i + 1);
    for (let power = 1024; power < 2 ** 22; power *= 2) for (const quarters of [4, 5, 6, 7]) for (const more of [-1, 0, 1]) all.push((power / 4) * quarters + more);
    for (const bytes of all) {
        const step = stepOf(bytes), size = Math.ceil(bytes / step) * step, lowest = size - stepOf(size) + 1, what = `the block for ${bytes} bytes`;
        heap_start(BASE);
        assert.deepEqual([test_alloc(bytes, 8), test_alloc(1, 8)], [BASE, BASE + size], what);
        test_dealloc(BASE, bytes);
        for (const other of [lowest, bytes, size]) {
            assert.deepEqual([test_alloc(other, 8), test_realloc(BASE, other, bytes)], [BASE, BASE], `${what}, for ${other}`);
            test_dealloc(BASE, bytes);
        }
        for (const other of [lowest - 1, size + 1]) if (other > 0) assert.notEqual(test_alloc(other, 8), BASE, `${what}, for ${other}`);
        assert.equal(test_alloc(size, 8), BASE, what);
        const moved = test_realloc(BASE, bytes, size + 1);
        assert.ok(moved !== BASE && moved !== 0 && test_alloc(bytes, 8) === BASE, `${what}, made larger`);
    }
    for (let more = 0; more < 40; more++) {
        heap_start(BASE + more);
        assert.equal(test_alloc(8, 8), BASE + Math.ceil(more / 16) * 16);
    }
});

test("the memory grows by the pages that are missing and a sixteenth, where one is missing", async () => {
    const { exports } = (await WebAssembly.instantiate(heap)).instance, pages = () => exports.memory.buffer.byteLength / PAGE;
    for (let round = 0; round < 40; round++) {
        const have = pages();
        exports.heap_start(have * PAGE - 160);
        assert.deepEqual([exports.test_alloc(160, 8), pages()], [have * PAGE - 160, have]);
        const [from, bytes, missing] = [[-144, 160, 1], [0, 3 * PAGE, 3], [16, PAGE, 2], [-16, PAGE, 1]][round % 4];
        exports.heap_start(have * PAGE + from);
        assert.deepEqual([exports.test_alloc(bytes, 8), pages()], [have * PAGE + from, have + missing + Math.floor(have / 16)]);
    }
});

test("with a cap on the memory, what can be had up to there is had", async () => {
    const { capped, most } = memoryOf(heap);
    assert.equal(most, 32768);
    for (let pages = 40; pages < 50; pages++) {
        const { exports } = (await WebAssembly.instantiate(capped(pages))).instance, taken = [];
        exports.heap_start(BASE);
        for (let at; (at = exports.test_alloc(10000, 8)) !== 0; ) taken.push(at);
        // (a block of 10,000 bytes has 10,240)
        assert.deepEqual([exports.memory.buffer.byteLength, taken.length], [pages * PAGE, Math.floor((pages * PAGE - BASE) / 10240)]);
        exports.test_dealloc(taken[3], 10000);
        assert.deepEqual([exports.test_alloc(10000, 8), exports.test_alloc(10000, 8)], [taken[3], 0]);
    }
});
