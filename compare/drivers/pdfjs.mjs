// Prints the text of a PDF's pages as a viewer of pdf.js copies and finds it: node pdfjs.mjs FILE (Debian's libjs-pdf)
import { readFileSync } from "node:fs";
import { createRequire } from "node:module";

const folder = "/usr/share/javascript/pdf/build";
const pdfjs = createRequire(import.meta.url)(`${folder}/pdf.js`);
pdfjs.GlobalWorkerOptions.workerSrc = `${folder}/pdf.worker.js`;
const file = await pdfjs.getDocument({ data: new Uint8Array(readFileSync(process.argv[2])), verbosity: 0 }).promise;
for (let number = 1; number <= file.numPages; number++) {
    const text = await (await file.getPage(number)).getTextContent();
    process.stdout.write(text.items.map((it) => it.str + (it.hasEOL ? "\n" : "")).join(""));
}
