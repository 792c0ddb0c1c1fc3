/** A PDF of lines in five scripts that HarfBuzz shapes, one of them a column; readers copy and find their text. Its streams are compressed. */
import { execFileSync } from "node:child_process";
import { readFileSync, writeFileSync } from "node:fs";
import { deflateSync } from "node:zlib";
import { load } from "subsetter-proved";

const FOLDER = "/usr/share/fonts", DEJAVU = `${FOLDER}/truetype/dejavu/DejaVuSans.ttf`;
const LINES = [
    [DEJAVU, "ltr", "Hello, Ελλάδα, office"],
    [DEJAVU, "rtl", "سلام لا"],
    [`${FOLDER}/truetype/lohit-devanagari/Lohit-Devanagari.ttf`, "ltr", "हिन्दी क्षत्रिय"],
    [`${FOLDER}/truetype/tlwg/Garuda.ttf`, "ltr", "ภาษาไทยที่นี่"],
    [`${FOLDER}/opentype/ipaexfont-mincho/ipaexm.ttf`, "ttb", "吾輩は猫である"],
];

/** What harfbuzzjs has as buffer.json(), by hb-shape. */
const shape = (path, direction, line) => JSON.parse(execFileSync("hb-shape", ["--output-format=json", "--no-glyph-names", `--direction=${direction}`, path, line]));

// The page comes first, and then a font for all runs of a text.
const subsetter = await load(), texts = new Map(), shows = ["BT"];
LINES.forEach(([path, direction, line], k) => {
    const vertical = direction === "ttb", place = vertical ? "48 220" : `80 ${200 - 40 * k}`;
    texts.set(path, texts.get(path) ?? new subsetter.PdfText(readFileSync(path), { vertical }));
    const run = texts.get(path).shaped(line, shape(path, direction, line), { direction, size: 24 });
    shows.push(`1 0 0 1 ${place} Tm /F${[...texts.keys()].indexOf(path)} 24 Tf`, Buffer.from(run).toString("latin1"));
});
const content = deflateSync([...shows, "ET"].join(" ")), parts = [];
const names = [...texts.values()].map((text, name) => {
    const font = text.font(), first = 5 + parts.length;
    parts.push(...font.parts(Array.from({ length: font.partCount }, (_, index) => first + index), { pack: deflateSync }));
    return `/F${name} ${first} 0 R`;
});
const objects = [
    ["<< /Type /Catalog /Pages 2 0 R >>"],
    ["<< /Type /Pages /Count 1 /Kids [3 0 R] >>"],
    [`<< /Type /Page /Parent 2 0 R /MediaBox [0 0 400 240] /Contents 4 0 R /Resources << /Font << ${names.join(" ")} >> >> >>`],
    [`<< /Filter /FlateDecode /Length ${content.length} >>\nstream\n`, content, "\nendstream"],
    ...parts.map(part => [part.value]),
];

const pieces = [], offsets = [];
const write = piece => pieces.push(Buffer.from(piece)), size = () => pieces.reduce((sum, it) => sum + it.length, 0);
write("%PDF-1.7\n");
for (const value of objects) {
    offsets.push(size());
    [`${offsets.length} 0 obj\n`, ...value, "\nendobj\n"].forEach(write);
}
const start = size(), rows = offsets.map(it => `${String(it).padStart(10, "0")} 00000 n \n`).join("");
write(`xref\n0 ${offsets.length + 1}\n0000000000 65535 f \n${rows}`);
write(`trailer\n<< /Size ${offsets.length + 1} /Root 1 0 R >>\nstartxref\n${start}\n%%EOF\n`);
writeFileSync("hello.pdf", Buffer.concat(pieces));
