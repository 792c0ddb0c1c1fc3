/** The page: takes a font and a text, and shows the PDF. */
import { make } from "make";
import { load } from "subsetter";

const at = (id) => document.getElementById(id);
const say = (text) => (at("said").textContent = text);
const bytes = Uint8Array.from(atob(at("module").textContent), (letter) => letter.charCodeAt(0));
const subsetter = await load(bytes);
let font = null;

/** Gives a link the address of what it leads to, and forgets the one before. */
function link(id, data, type, name) {
    URL.revokeObjectURL(at(id).href);
    at(id).href = URL.createObjectURL(new Blob([data], { type }));
    at(id).download = name;
}

function show() {
    if (!font) return;
    at("links").hidden = at("shown").hidden = true;
    try {
        const { pdf, subset, missing } = make(subsetter, font.data, at("text").value);
        const name = font.name.replace(/\.[^.]*$/, "");
        link("pdf", pdf, "application/pdf", `${name}.pdf`);
        link("subset", subset, "font/sfnt", `${name}-subset.${font.name.endsWith("otf") ? "otf" : "ttf"}`);
        at("shown").src = at("pdf").href;
        at("links").hidden = at("shown").hidden = false;
        const sizes = `${font.name} has ${font.data.byteLength} bytes, the PDF ${pdf.length}, the subset ${subset.length}.`;
        say(missing.length > 0 ? `${sizes} The font has no ${missing.join(" ")}` : sizes);
    } catch (error) {
        say(`${font.name}: ${error}`);
    }
}

async function take(file) {
    if (!file) return;
    font = { name: file.name, data: await file.arrayBuffer() };
    show();
}

document.addEventListener("dragover", (event) => event.preventDefault());
document.addEventListener("drop", (event) => {
    event.preventDefault();
    take(event.dataTransfer.files[0]);
});
at("file").addEventListener("change", () => take(at("file").files[0]));
at("text").addEventListener("input", show);
say(`Drop a font here. (subsetter ${subsetter.version})`);
