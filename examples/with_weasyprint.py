"""A PDF of one line by WeasyPrint, whose fonts are made by this library: it replaces a function of the module weasyprint.pdf.fonts."""
import pydyf
import weasyprint.pdf

import subsetter


class Part(pydyf.Object):
    """An object by its value."""

    data = b"null"


def build_fonts_dictionary(pdf, fonts, optimize_size):
    """The fonts of a document. Each counts its glyphs' texts in `cmap`; strings have the glyphs' own numbers."""
    names = pydyf.Dictionary()
    for font in fonts.values():
        made = subsetter.pdf_font(font.file_content, font.cmap.items(), font.index, codes="source", hinting=False)
        first = len(pdf.objects)
        for part in made.parts(range(first, first + made.part_count), compress=True):
            pdf.add_object(Part())
            pdf.objects[-1].data = part.value
        names[font.hash] = f"{first} 0 R"
    return names


weasyprint.pdf.build_fonts_dictionary = build_fonts_dictionary
page = '<style>@page { size: 300pt 144pt; margin: 36pt } p { font: 24pt "DejaVu Sans" }</style><p>Hello, Ελλάδα!</p>'
weasyprint.HTML(string=page).write_pdf("hello.pdf")
