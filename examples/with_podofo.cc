/* A PDF of one line by PoDoFo 0.9, which compresses the streams. */
#include "subsetter.h"

#include <fstream>
#include <iterator>
#include <podofo/podofo.h>
#include <stdexcept>
#include <string>
#include <vector>

using namespace PoDoFo;

static void demand(uint32_t status)
{
    if (status != SUBSETTER_DONE)
        throw std::runtime_error(subsetter_status_text(status));
}

/* Puts the objects of a font into a file: the font. */
static PdfReference add(PdfVecObjects &objects, const subsetter_font &font)
{
    std::vector<uint32_t> numbers;
    for (size_t i = 0; i < subsetter_pdf_part_count(&font); i++)
        numbers.push_back(objects.CreateObject(PdfVariant(PdfDictionary()))->Reference().ObjectNumber());
    subsetter_pdf_parts made;
    demand(subsetter_make_pdf_parts(&font, numbers.data(), numbers.size(), &made));
    for (const subsetter_pdf_part *part = made.parts; part < made.parts + made.part_count; part++) {
        const std::string value = "<< " + std::string(reinterpret_cast<const char *>(part->entries), part->entries_size) + ">>";
        PdfVariant dictionary;
        PdfTokenizer(value.data(), value.size()).GetNextVariant(dictionary, nullptr);
        PdfObject *object = objects.GetObject(PdfReference(part->number, 0));
        object->GetDictionary() = dictionary.GetDictionary();
        if (part->is_stream)
            object->GetStream()->Set(reinterpret_cast<const char *>(part->stream), part->stream_size);
    }
    subsetter_free_pdf_parts(&made);
    return PdfReference(numbers[0], 0);
}

int main()
{
    const std::string text = "Hello, Ελλάδα!";
    std::ifstream file("/usr/share/fonts/truetype/dejavu/DejaVuSans.ttf", std::ios::binary);
    const std::string data(std::istreambuf_iterator<char>(file), {});
    subsetter_font font;
    demand(subsetter_make_pdf_font_of_utf8(
        reinterpret_cast<const uint8_t *>(data.data()), data.size(), 0, nullptr, 0, text.data(), text.size(), nullptr, &font));

    PdfMemDocument pdf;
    PdfPage *page = pdf.CreatePage(PdfRect(0, 0, 300, 144));
    page->AddResource(PdfName("F1"), add(pdf.GetObjects(), font), PdfName("Font"));
    std::string codes(subsetter_string(font.pdf.codes, font.pdf.code_count, nullptr, 0), ' ');
    subsetter_string(font.pdf.codes, font.pdf.code_count, &codes[0], codes.size() + 1);
    const std::string content = "BT /F1 24 Tf 36 60 Td " + codes + " Tj ET";
    page->GetContentsForAppending()->GetStream()->Set(content.data(), content.size());
    subsetter_free_font(&font);
    pdf.Write("hello.pdf");
}
