"""A PDF of one line by PyMuPDF, which compresses the streams."""
import fitz

import subsetter


def add(pdf, font):
    """Puts the objects of a font into a file: the font's number."""
    numbers = [pdf.get_new_xref() for _ in range(font.part_count)]
    for part in font.parts(numbers):
        pdf.update_object(part.number, f"<< {part.entries.decode('latin-1')}>>")
        if part.stream is not None:
            pdf.update_stream(part.number, part.stream)
    return numbers[0]


with open("/usr/share/fonts/truetype/dejavu/DejaVuSans.ttf", "rb") as file:
    data = file.read()
font = subsetter.pdf_font(data, subsetter.glyphs_of(data, "Hello, Ελλάδα!"))

pdf = fitz.open()
page = pdf.new_page(width=300, height=144)
pdf.xref_set_key(page.xref, "Resources", f"<< /Font << /F1 {add(pdf, font)} 0 R >> >>")
content = pdf.get_new_xref()
pdf.update_object(content, "<< >>")
pdf.update_stream(content, b"BT /F1 24 Tf 36 60 Td %s Tj ET" % font.string(font.codes))
page.set_contents(content)
pdf.save("hello.pdf")
