/**
 * A PDF of a text in a font, the font's subset for it, and the characters that the font doesn't have. Outlines in `CFF2` are taken at
 * the default of their axes, which is what `coordinates: {}` says.
 */
export function make(subsetter, data, text) {
    const options = { coordinates: {} }, shown = subsetter.glyphsOf(data, text);
    const missing = [...new Set(shown.filter(({ glyph }) => glyph === 0).map((it) => it.text))];
    const pdf = subsetter.pdfFont(data, shown, options).sheet();
    return { pdf, subset: subsetter.subset(data, shown.map(({ glyph }) => glyph), options), missing };
}
