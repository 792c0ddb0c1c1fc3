/** The file for npm, as npm installs it in an empty folder: its files, programs in Node, and its types by tsc. */
import assert from "node:assert/strict";
import { execFileSync } from "node:child_process";
import { copyFileSync, mkdtempSync, readFileSync, readdirSync, rmSync, writeFileSync } from "node:fs";
import { tmpdir } from "node:os";
import { join } from "node:path";
import { after, test } from "node:test";
import { library, path, read, subsetter } from "./support.mjs";

const version = read("VERSION").toString().split("\n")[0], packed = path(`bindings/js/out/subsetter-proved-${version}.tgz`);
const folder = mkdtempSync(join(tmpdir(), "subsetter package é %20-")), top = join(folder, "node_modules/subsetter-proved");
after(() => rmSync(folder, { recursive: true }));
const run = (program, ...words) => execFileSync(program, words, { cwd: folder, encoding: "utf8" });
writeFileSync(join(folder, "package.json"), '{"name": "user", "private": true, "type": "module"}');
run("npm", "install", "--silent", "--offline", "--no-audit", "--no-fund", packed);

test("the files of the package", () => {
    const names = ["LICENSE", "NOTICE", "README.md", "package.json", "subsetter.d.mts", "subsetter.mjs", "subsetter.wasm"];
    assert.deepEqual(readdirSync(top).sort(), names);
    const sources = { LICENSE: "", NOTICE: "", "README.md": "bindings/js/", "subsetter.d.mts": "bindings/js/", "subsetter.mjs": "bindings/js/", "subsetter.wasm": "bindings/js/out/" };
    for (const [name, source] of Object.entries(sources)) assert.ok(readFileSync(join(top, name)).equals(read(`${source}${name}`)), name);
    const manifest = JSON.parse(readFileSync(join(top, "package.json"), "utf8"));
    assert.deepEqual(manifest, { ...JSON.parse(read("bindings/js/package.json")), version });
    assert.deepEqual([manifest.name, manifest.type, manifest.license, manifest.dependencies], ["subsetter-proved", "module", "MIT OR Apache-2.0", undefined]);
    assert.equal(join(top, manifest.main), join(top, manifest.exports["."].default));
});

test("a program that takes the package", () => {
    writeFileSync(join(folder, "program.mjs"), `import { load, UnknownKind } from "subsetter-proved";
        const subsetter = await load(), url = import.meta.resolve("subsetter-proved/subsetter.wasm");
        for (const it of [new URL(url), url, url.replace("file:", "FILE:"), " " + url]) (await load(it)).open(new Uint8Array());
        try { subsetter.subset(new Uint8Array(), []) } catch (error) { console.log(error instanceof UnknownKind, subsetter.version) }`);
    assert.equal(run(process.execPath, "program.mjs"), `true ${version}\n`);
});

test("the examples of its README", () => {
    const blocks = [...read("bindings/js/README.md").toString().matchAll(/^```js\n(.*?)^```$/gms)].map(([, text]) => text);
    const [first, ...others] = blocks, ends = ["font.length > 1000, made.cids", "latin.length > 500, greek.cids", "heavy.length > 1000", "line.length > 10, font.glyphCount"];
    assert.equal(blocks.length, ends.length);
    const front = 'import { readFileSync } from "node:fs";\nconst bytes = readFileSync("/usr/share/fonts/truetype/dejavu/DejaVuSans.ttf");\nconst buffer = { json: () => [{ g: 5293, cl: 0, ax: 1716, ay: 0, dx: 0, dy: 0 }] };\n';
    const end = (i) => `console.log(JSON.stringify([${ends[i]}]));`;
    writeFileSync(join(folder, "readme.mjs"), `${front}${first}${end(0)}\n${others.map((text, i) => `{\n${text}${end(i + 1)}\n}`).join("\n")}`);
    assert.equal(run(process.execPath, "readme.mjs"), "[true,[1,2]]\n[true,[1,2]]\n[true]\n[true,9]\n");
});

test("the types", () => {
    copyFileSync(path("tests/js/uses.mts"), join(folder, "uses.mts"));
    try {
        run("tsc", "--noEmit", "--strict", "--target", "es2022", "--module", "node16", "--moduleResolution", "node16", "--lib", "es2022,dom", "uses.mts");
    } catch (error) {
        assert.fail(error.stdout);
    }
    const types = read("bindings/js/subsetter.d.mts").toString(), names = [...types.matchAll(/^export (?:class|function) (\w+)/gm)].map(([, name]) => name);
    assert.deepEqual(names.sort(), Object.keys(library).sort());
    // What an interface names is there, and the other way.
    const members = (name) => [...new RegExp(`^export interface ${name} \\{\\n(.*?)^\\}`, "ms").exec(types)[1].matchAll(/^    (?:readonly )?(\w+)\??[(:]/gm)].map(([, it]) => it).sort();
    const own = (it) => [...Object.keys(it), ...Object.getOwnPropertyNames(Object.getPrototypeOf(it))].filter((name) => name !== "constructor").sort();
    const font = read("bindings/rust/tests/data/made.ttf"), pdf = subsetter.pdfFont(font, [{ glyph: 1, text: "A" }, { glyph: 1, text: "a" }], { vertical: true, cidSet: true, codes: "each_text" });
    assert.deepEqual(members("Subsetter"), Object.keys(subsetter).sort());
    assert.deepEqual(members("Font"), own(subsetter.open(font)));
    const text = new subsetter.PdfText(font);
    assert.deepEqual(members("PdfFont"), [...new Set([...own(pdf), ...own(text.font())])].sort());
    assert.deepEqual(members("PdfText"), [...own(text), ...own(Object.getPrototypeOf(text))].sort());
    const answers = { Embedded: subsetter.embed(font, [1]), Descriptor: { xHeight: 0, ...pdf.descriptor }, Permission: pdf.permission, Column: pdf.columns[0], Objects: pdf.objects(1), Shown: subsetter.glyphsOf(font, "A")[0] };
    for (const [name, answer] of Object.entries(answers)) assert.deepEqual(members(name), Object.keys(answer).sort());
});
