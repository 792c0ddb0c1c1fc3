/** The worked rows in Chromium and in Firefox, without windows: a page runs them, and sends what differs to a server of this test. */
import assert from "node:assert/strict";
import { spawn } from "node:child_process";
import { createServer } from "node:http";
import { mkdtempSync, rmSync } from "node:fs";
import { tmpdir } from "node:os";
import { extname, join } from "node:path";
import { test } from "node:test";
import { pdfTable, place, read } from "./support.mjs";
import { readPdfRows } from "./rows.mjs";

const TYPES = { ".mjs": "text/javascript", ".wasm": "application/wasm" };
const FILES = {
    "/subsetter.mjs": "bindings/js/subsetter.mjs", "/subsetter.wasm": "bindings/js/out/subsetter.wasm", "/rows.mjs": "tests/js/rows.mjs",
    "/rows.txt": "crates/dev_rows/data/subset.txt", "/pdf.txt": "crates/dev_rows/data/pdf.txt",
    ...Object.fromEntries(readPdfRows(pdfTable).map(({ font }) => [`/${font}`, place(font)])),
};
const PAGE = `<!doctype html><meta charset=utf-8><script type=module>
    const wrong = [];
    try {
        const library = await import("/subsetter.mjs"), { readPdfRows, wrongPdfRows, wrongRows } = await import("/rows.mjs");
        const table = await (await fetch("/rows.txt")).text(), text = await (await fetch("/pdf.txt")).text(), files = {};
        for (const { font } of readPdfRows(text)) files[font] = await (await fetch("/" + font)).arrayBuffer();
        for (const source of [undefined, "/subsetter.wasm", await fetch("/subsetter.wasm")]) wrong.push(...wrongRows(library, await library.load(source), table));
        wrong.push(...wrongPdfRows(library, await library.load(), text, files));
        // A module that is sent to a worker is as good.
        const code = 'import { load } from "' + location.origin + '/subsetter.mjs"; onmessage = async ({ data }) => { try { (await load(data)).subset(new Uint8Array(), []) } catch (error) { postMessage(error.name) } }; postMessage("ready")';
        const worker = new Worker(URL.createObjectURL(new Blob([code], { type: "text/javascript" })), { type: "module" });
        const told = () => new Promise((done, fail) => Object.assign(worker, { onmessage: ({ data }) => done(data), onerror: () => fail(new Error("the worker failed")) }));
        await told();
        worker.postMessage(await WebAssembly.compile(await (await fetch("/subsetter.wasm")).arrayBuffer()));
        const name = await told();
        if (name !== "UnknownKind") wrong.push("the worker: " + name);
    } catch (error) {
        wrong.push(String(error) + error.stack);
    }
    await fetch("/done", { method: "POST", body: JSON.stringify(wrong) });
</script>`;

/** What differs in a browser, which is started with the words for a folder and an address. */
async function differences(browser, wordsOf) {
    const profile = mkdtempSync(join(tmpdir(), "browser-"));
    let done;
    const told = new Promise((resolve, reject) => (done = { resolve, reject }));
    const server = createServer(async (request, response) => {
        if (request.method === "POST") {
            let text = "";
            for await (const part of request) text += part;
            response.end();
            done.resolve(JSON.parse(text));
        } else if (request.url === "/") {
            response.setHeader("content-type", "text/html").end(PAGE);
        } else if (request.url in FILES) {
            response.setHeader("content-type", TYPES[extname(request.url)] ?? "application/octet-stream").end(read(FILES[request.url]));
        } else {
            response.writeHead(404).end();
        }
    });
    await new Promise((resolve) => server.listen(0, "127.0.0.1", resolve));
    const child = spawn(browser, wordsOf(profile, `http://127.0.0.1:${server.address().port}/`), { env: { ...process.env, HOME: profile }, stdio: "ignore", detached: true });
    child.on("error", done.reject).on("exit", (status) => done.reject(new Error(`${browser} ends with ${status}`)));
    const timer = setTimeout(() => done.reject(new Error(`${browser} doesn't answer`)), 1_800_000);
    try {
        return await told;
    } finally {
        clearTimeout(timer);
        child.removeAllListeners("exit");
        // (with all that it started)
        if (child.pid) process.kill(-child.pid, "SIGKILL");
        server.closeAllConnections();
        server.close();
        rmSync(profile, { recursive: true, maxRetries: 10, retryDelay: 300 });
    }
}

test("Chromium", async () => {
    const words = (profile, url) => ["--headless", "--no-sandbox", "--disable-gpu", "--disable-dev-shm-usage", `--user-data-dir=${profile}`, url];
    assert.deepEqual(await differences("chromium", words), []);
});

test("Firefox", async () => {
    assert.deepEqual(await differences("firefox-esr", (profile, url) => ["--headless", "--no-remote", "--profile", profile, url]), []);
});
