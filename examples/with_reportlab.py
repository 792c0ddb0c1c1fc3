"""A PDF of one line by ReportLab: the font's objects are among those of its document."""
from reportlab.pdfbase import pdfdoc
from reportlab.pdfgen import canvas

import subsetter


class Whole(pdfdoc.PDFObject):
    """An object by its value."""

    value = b"null"

    def format(self, document):
        return self.value


def add(document, font):
    """Puts the objects of a font into a document: a reference to the font."""
    # ReportLab gives an object its number when it is first asked for.
    objects = [Whole() for _ in range(font.part_count)]
    references = [document.Reference(it) for it in objects]
    numbers = [int(it.format(document).split()[0]) for it in references]
    for it, part in zip(objects, font.parts(numbers, compress=True)):
        it.value = part.value
    return references[0]


with open("/usr/share/fonts/truetype/dejavu/DejaVuSans.ttf", "rb") as file:
    data = file.read()
font = subsetter.pdf_font(data, subsetter.glyphs_of(data, "Hello, Ελλάδα!"))

page = canvas.Canvas("hello.pdf", pagesize=(300, 144))
document = page._doc
document.fontMapping["F9"] = "/F9"
document.idToObject["BasicFonts"].dict["F9"] = add(document, font)
page._code.append(f"BT /F9 24 Tf 36 60 Td {font.string(font.codes).decode()} Tj ET")
page.showPage()
page.save()
