// What the WebAssembly module returns: node wasm.mjs MODULE LIST. A line of LIST is PATH, FACE and glyphs with commas between, with tabs
// between these three; for each it prints the error's name, or the font's length and its SHA-256.
import { createHash } from "node:crypto";
import { readFileSync } from "node:fs";
import { load } from "../../bindings/js/subsetter.mjs";

const [path, list] = process.argv.slice(2);
const subsetter = await load(readFileSync(path));
for (const line of readFileSync(list, "utf8").trimEnd().split("\n")) {
    const [font, index, glyphs] = line.split("\t");
    try {
        const made = subsetter.subset(readFileSync(font), glyphs.split(",").map(Number), { index: Number(index) });
        console.log(`${made.font?.length ?? made.length} ${createHash("sha256").update(made.font ?? made).digest("hex")}`);
    } catch (error) {
        console.log(error.name);
    }
}
