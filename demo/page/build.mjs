/** Puts the page into one file: node build.mjs SUBSETTER.WASM OUT. Its scripts are named by an import map of `data:` addresses. */
import { readFileSync, writeFileSync } from "node:fs";

const [wasm, out] = process.argv.slice(2);
const text = (name) => readFileSync(new URL(name, import.meta.url), "utf8");
const address = (name) => `data:text/javascript;base64,${Buffer.from(text(name)).toString("base64")}`;
const imports = { subsetter: address("../../bindings/js/subsetter.mjs"), make: address("make.mjs") };
const scripts = `<script type="text/plain" id="module">${readFileSync(wasm).toString("base64")}</script>
<script type="importmap">${JSON.stringify({ imports })}</script>
<script type="module">
${text("page.mjs")}</script>`;
writeFileSync(out, text("index.html").replace("<!-- scripts -->", () => scripts));
