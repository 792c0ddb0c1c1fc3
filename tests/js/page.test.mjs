/** The page of demo/page: the PDF that it makes, as Poppler draws and reads it, and the page itself in one file. */
import assert from "node:assert/strict";
import { execFileSync } from "node:child_process";
import { mkdtempSync, readFileSync, rmSync, writeFileSync } from "node:fs";
import { tmpdir } from "node:os";
import { join } from "node:path";
import { test } from "node:test";
import { make } from "../../demo/page/make.mjs";
import { library, made, path, subsetter, throws } from "./support.mjs";

test("the PDF of a text, and its subset", () => {
    const data = readFileSync("/usr/share/fonts/truetype/dejavu/DejaVuSans.ttf"), text = "Hello, Ελλάδα!", folder = mkdtempSync(join(tmpdir(), "page-"));
    const { pdf, subset, missing } = make(subsetter, data, text), run = (...words) => execFileSync(words[0], words.slice(1), { cwd: folder });
    try {
        writeFileSync(join(folder, "page.pdf"), pdf);
        assert.equal(run("pdftotext", "-enc", "UTF-8", "page.pdf", "-").toString().trim(), text);
        const picture = run("pdftoppm", "-gray", "-r", "50", "page.pdf");
        assert.ok(picture.filter((point) => point < 128).length > 100, "the page is blank");
    } finally {
        rmSync(folder, { recursive: true });
    }
    assert.deepEqual(missing, []);
    assert.deepEqual(subset, subsetter.subset(data, subsetter.glyphsOf(data, text).map(({ glyph }) => glyph)));
    assert.deepEqual(make(subsetter, data, "A\u{10ffff}").missing, ["\u{10ffff}"]);
    assert.ok(make(subsetter, made("made_variable.ttf"), "A").pdf.length > 1000);
    throws(() => make(subsetter, new Uint8Array(10), text), library.UnknownKind, "no font");
});

/** Drops a font on the page, once it is ready. */
const DROP = `<script type="module">
    const data = new DataTransfer(), said = document.getElementById("said");
    data.items.add(new File([Uint8Array.from(atob("${Buffer.from(made("made.ttf")).toString("base64")}"), (it) => it.charCodeAt(0))], "made.ttf"));
    const timer = setInterval(() => {
        if (!said.textContent.startsWith("Drop a font here")) return;
        clearInterval(timer);
        document.dispatchEvent(new DragEvent("drop", { dataTransfer: data }));
    }, 50);
</script>`;

test("the page in one file, in Chromium", () => {
    const folder = mkdtempSync(join(tmpdir(), "chromium-")), words = ["--headless", "--no-sandbox", "--disable-gpu", `--user-data-dir=${folder}/profile`];
    try {
        writeFileSync(join(folder, "page.html"), readFileSync(path("bindings/js/out/page.html"), "utf8") + DROP);
        const found = execFileSync("chromium", [...words, "--virtual-time-budget=200000", "--dump-dom", `file://${folder}/page.html`], { stdio: ["ignore", "pipe", "ignore"] }).toString();
        assert.match(found, /<p id="said" role="status">made\.ttf has \d+ bytes, the PDF \d+, the subset \d+\. The font has no e l/);
        assert.equal(found.match(/<a id="(pdf|subset)" href="blob:[^"]+" download="made(\.pdf|-subset\.ttf)">/g).length, 2);
        assert.match(found, /<iframe id="shown" title="The PDF" src="blob:/);
    } finally {
        rmSync(folder, { recursive: true, maxRetries: 5, retryDelay: 200 });
    }
});
