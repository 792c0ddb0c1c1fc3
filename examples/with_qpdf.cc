/* A PDF of one line by qpdf's library, which compresses the streams. */
#include "subsetter.h"

#include <fstream>
#include <iterator>
#define POINTERHOLDER_TRANSITION 4
#include <qpdf/QPDF.hh>
#include <qpdf/QPDFPageDocumentHelper.hh>
#include <qpdf/QPDFWriter.hh>
#include <stdexcept>
#include <string>
#include <vector>

static void demand(uint32_t status)
{
    if (status != SUBSETTER_DONE)
        throw std::runtime_error(subsetter_status_text(status));
}

/* Puts the objects of a font into a file: the font. */
static QPDFObjectHandle add(QPDF &pdf, const subsetter_font &font)
{
    std::vector<QPDFObjectHandle> objects;
    std::vector<uint32_t> numbers;
    for (size_t i = 0; i < subsetter_pdf_part_count(&font); i++) {
        objects.push_back(QPDFObjectHandle::newStream(&pdf));
        numbers.push_back(objects[i].getObjectID());
    }
    subsetter_pdf_parts made;
    demand(subsetter_make_pdf_parts(&font, numbers.data(), numbers.size(), &made));
    for (size_t i = 0; i < made.part_count; i++) {
        const subsetter_pdf_part &part = made.parts[i];
        std::string entries(reinterpret_cast<const char *>(part.entries), part.entries_size);
        QPDFObjectHandle dictionary = QPDFObjectHandle::parse(&pdf, "<< " + entries + ">>");
        if (part.is_stream) {
            std::string stream(reinterpret_cast<const char *>(part.stream), part.stream_size);
            objects[i].replaceDict(dictionary);
            objects[i].replaceStreamData(stream, QPDFObjectHandle::newNull(), QPDFObjectHandle::newNull());
        } else {
            pdf.replaceObject(objects[i].getObjGen(), dictionary);
        }
    }
    subsetter_free_pdf_parts(&made);
    return pdf.getObject(objects[0].getObjGen());
}

int main()
{
    const std::string text = "Hello, Ελλάδα!";
    std::ifstream file("/usr/share/fonts/truetype/dejavu/DejaVuSans.ttf", std::ios::binary);
    const std::string data(std::istreambuf_iterator<char>(file), {});
    subsetter_font font;
    demand(subsetter_make_pdf_font_of_utf8(
        reinterpret_cast<const uint8_t *>(data.data()), data.size(), 0, nullptr, 0, text.data(), text.size(), nullptr, &font));

    std::string codes(subsetter_string(font.pdf.codes, font.pdf.code_count, nullptr, 0), ' ');
    subsetter_string(font.pdf.codes, font.pdf.code_count, &codes[0], codes.size() + 1);
    QPDF pdf;
    pdf.emptyPDF();
    QPDFObjectHandle page = QPDFObjectHandle::parse("<< /Type /Page /MediaBox [0 0 300 144] /Resources << /Font << >> >> >>");
    page.getKey("/Resources").getKey("/Font").replaceKey("/F1", add(pdf, font));
    page.replaceKey("/Contents", QPDFObjectHandle::newStream(&pdf, "BT /F1 24 Tf 36 60 Td " + codes + " Tj ET"));
    QPDFPageDocumentHelper(pdf).addPage(pdf.makeIndirectObject(page), false);
    subsetter_free_font(&font);
    QPDFWriter(pdf, "hello.pdf").write();
}
