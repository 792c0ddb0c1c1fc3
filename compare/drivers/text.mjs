// The operators of runs, and the objects of their font, as text.rs has them: node text.mjs MODULE FONT RUNS VERTICAL
import { readFileSync } from "node:fs";
import { load } from "../../bindings/js/subsetter.mjs";

const [module, font, runs, vertical] = process.argv.slice(2);
const subsetter = await load(readFileSync(module)), out = [];
const text = new subsetter.PdfText(readFileSync(font), { vertical: vertical === "1", rights: "held" });
for (const line of readFileSync(runs, "utf8").trimEnd().split("\n")) {
    const [direction, count, , ...rest] = line.split(" ").map(Number), glyphs = [];
    const before = cluster => String.fromCodePoint(...rest.slice(0, cluster));
    for (let at = count; at < rest.length; at += 6) {
        const [g, cl, ax, ay, dx, dy] = rest.slice(at, at + 6);
        glyphs.push({ g, cl: before(cl).length, ax, ay, dx, dy });
    }
    out.push(text.shaped(before(count), glyphs, { direction: ["ltr", "rtl", "ttb"][direction], size: 24 }));
}
process.stdout.write(Buffer.concat([...out, text.font({ hinting: false, cidSet: true }).objects(7).bytes]));
