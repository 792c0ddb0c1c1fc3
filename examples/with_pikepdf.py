"""A PDF of one line by pikepdf: the font is copied from a sheet into another file."""
import io

import pikepdf

import subsetter

with open("/usr/share/fonts/truetype/dejavu/DejaVuSans.ttf", "rb") as file:
    data = file.read()
font = subsetter.pdf_font(data, subsetter.glyphs_of(data, "Hello, Ελλάδα!"))

pdf = pikepdf.new()
page = pdf.add_blank_page(page_size=(300, 144))
with pikepdf.open(io.BytesIO(font.sheet())) as sheet:
    face = pdf.copy_foreign(sheet.pages[0].Resources.Font.F0)
page.Resources = pikepdf.Dictionary(Font=pikepdf.Dictionary(F1=face))
page.Contents = pdf.make_stream(b"BT /F1 24 Tf 36 60 Td %s Tj ET" % font.string(font.codes))
pdf.save("hello.pdf")
