/** Uses of the package: tsc has to accept each, but for the line after each `@ts-expect-error`, which it has to refuse. */
import { load, OutOfMemory, SubsetterError, UnknownKind } from "subsetter-proved";
import type { Advances, Column, Embedded, Font, GlyphKind, Objects, Part, PdfFont, PdfText, Run, Shown, Subsetter } from "subsetter-proved";

export async function accepted(data: Uint8Array, module: WebAssembly.Module): Promise<void> {
    const subsetter: Subsetter = await load();
    for (const source of [module, data, data.buffer, new URL("https://example.org"), "address", new Response()]) await load(source);
    const version: string = subsetter.version;
    let font: Uint8Array = subsetter.subset(data, [36, 68]);
    font = subsetter.subset(new DataView(data.buffer), new Set([1]), { index: 1, hinting: false, names: false, glyphNames: false });
    font = subsetter.subset(data.buffer, Uint16Array.of(1), { small: true, limits: { tokens: 5, depth: 3, mostBytes: 7 }, coordinates: { wght: 650, wdth: 87.5 } });
    const embedded: Embedded = subsetter.embed(data, [36], { limits: {}, coordinates: {} });
    const numbers: number[][] = [embedded.cids, embedded.widths];
    const opened: Font = subsetter.open(data, { index: 0 });
    font = opened.subset([1], { names: false });
    font = opened.embed(new Set([1]).values(), { coordinates: { wght: 1 } }).font;
    opened.close();
    console.log(version, font, numbers, new UnknownKind("why") instanceof SubsetterError, OutOfMemory);
}

export function acceptedForPdf(subsetter: Subsetter, data: Uint8Array): void {
    const shown: Shown[] = subsetter.glyphsOf(data, "Hello", { index: 0 });
    let font: PdfFont = subsetter.pdfFont(data, shown);
    font = subsetter.open(data).pdfFont(new Set(shown), { program: "opentype", codes: "each_text", vertical: true, bounds: "kept", cidSet: true });
    font = subsetter.pdfFont(data, [{ glyph: 5, text: "fi" }], { tag: "ABCDEF", rights: "held", hinting: false, limits: { tokens: 5 }, coordinates: { wght: 1 } });
    const bytes: Uint8Array[] = [font.program, font.toUnicode, font.sheet(), font.sheet("grid"), font.encoding ?? font.program, font.cidSet ?? font.program];
    const objects: Objects = font.objects(4);
    const columns: Column[] = font.columns ?? [];
    const kind: "TrueType" | "CFF" | "OpenType" = font.kind;
    const { fontName, bounds: [left], italicAngle, xHeight } = font.descriptor;
    const numbers: number[] = [font.glyphCount, ...font.cids, ...font.codes, ...font.widths, font.defaultWidth, left, italicAngle, xHeight ?? 0, ...objects.offsets];
    const texts: string[] = [fontName, kind, font.encodingName ?? "", font.permission.usage];
    const truths: boolean[] = [...font.textIsMapped, font.permission.subsetting, font.permission.outlines];
    const parts: Part[] = [...font.parts([1, 2, 3, 4, 5]), ...font.parts(new Set([1]), { pack: (it: Uint8Array) => it.slice(), filter: "/X" })];
    const advances: Advances = subsetter.advances(data, [1], { index: 0, coordinates: { wght: 1 }, limits: { tokens: 5 } });
    bytes.push(parts[0].entries, parts[0].value, parts[0].stream ?? data);
    numbers.push(parts[0].number, parts[0].strings[0][1], font.partCount, font.unitsPerEm, ...font.exactWidths, ...advances.widths, ...font.unseen, ...subsetter.codesOf(shown, "each_text"));
    const kinds: GlyphKind[][] = [...subsetter.kindsOf(data, [1], { index: 0 }), ...subsetter.open(data).kindsOf(new Set([1]))];
    texts.push(parts[0].role, ...font.unknownAxes, ...kinds[0]);
    const text: PdfText = new subsetter.PdfText(data, { index: 0, coordinates: { wght: 1 }, vertical: false, rights: "held", order: "logical", limits: {} });
    bytes.push(text.run(new Set([{ glyph: 5, text: "fi" }, { glyph: 7, xAdvance: 0, yOffset: 3 }]), { direction: "rtl", size: 9.5 }));
    bytes.push(text.shaped("A", [{ g: 1, cl: 0, ax: 500, ay: 0, dx: 0, dy: 0 }]), text.font({ cidSet: true, tag: "ABCDEF" }).cidToGidMap ?? data);
    const run: Run = text.run([{ glyph: 1, text: "A" }], { size: 36 });
    bytes.push(text.sheet(new Set([run]), { cidSet: true }));
    numbers.push(text.unitsPerEm, run.advance, ...text.advances([1]));
    texts.push(font.string([1, 2]));
    text.close();
    font.close();
    console.log(bytes, columns, numbers, texts, truths, font.defaultColumn?.[1], columns[0]?.advance);
}

export function refused(subsetter: Subsetter, data: Uint8Array): void {
    // @ts-expect-error
    subsetter.subset("text", [1]);
    // @ts-expect-error
    subsetter.subset(data, 5);
    // @ts-expect-error
    subsetter.subset(data, ["1"]);
    // @ts-expect-error
    subsetter.subset(data);
    // @ts-expect-error
    subsetter.subset(data, [1], { hint: false });
    // @ts-expect-error
    subsetter.subset(data, [1], { hinting: 0 });
    // @ts-expect-error
    subsetter.subset(data, [1], { names: null });
    // @ts-expect-error
    subsetter.embed(data, [1], { limits: { tokens: "5" } });
    // @ts-expect-error
    subsetter.embed(data, [1], { coordinates: [["wght", 1]] });
    // @ts-expect-error
    subsetter.open(data, { limits: {} });
    // @ts-expect-error
    subsetter.open(data).subset([1], { index: 0 });
    // @ts-expect-error
    subsetter.glyphsOf(data, 5);
    // @ts-expect-error
    subsetter.pdfFont(data, [36]);
    // @ts-expect-error
    subsetter.pdfFont(data, [], { codes: "cids" });
    // @ts-expect-error
    subsetter.pdfFont(data, [], { names: false });
    // @ts-expect-error
    subsetter.pdfFont(data, []).sheet("page");
    // @ts-expect-error
    subsetter.pdfFont(data, []).objects();
    // @ts-expect-error
    new subsetter.PdfText(data).run([{ text: "A" }]);
    // @ts-expect-error
    new subsetter.PdfText(data).shaped("A", [], { direction: "up" });
    // @ts-expect-error
    new subsetter.PdfText(data).sheet([data]);
    // @ts-expect-error
    subsetter.version = "2";
    // @ts-expect-error
    const text: string = subsetter.embed(data, [1]);
    console.log(text);
}
