// A user of the installed library in C++: the header's own functions, and calls of the library with C's names.
#include <subsetter.h>

#include <cstdio>
#include <cstring>

int main()
{
    subsetter_options options = SUBSETTER_DEFAULT_OPTIONS;
    subsetter_pdf_options of_pdf = SUBSETTER_DEFAULT_PDF_OPTIONS;
    subsetter_made made;
    subsetter_pdf_font font;
    char version[32];
    std::snprintf(version, sizeof version, "%d.%d.%d", SUBSETTER_VERSION_MAJOR, SUBSETTER_VERSION_MINOR, SUBSETTER_VERSION_PATCH);
    bool is_right = subsetter_version() == SUBSETTER_VERSION && SUBSETTER_VERSION_N == 0 && std::strcmp(version, SUBSETTER_VERSION_TEXT) == 0;
    is_right &= subsetter_make_subset(nullptr, 0, 0, nullptr, 0, &options, &made) == SUBSETTER_UNKNOWN_KIND && made.font_size == 0;
    is_right &= subsetter_make_pdf_font(nullptr, 0, 0, nullptr, 0, nullptr, 0, nullptr, 0, nullptr, 0, &of_pdf, &font) == SUBSETTER_UNKNOWN_KIND;
    is_right &= std::strcmp(subsetter_status_text(SUBSETTER_UNKNOWN_KIND), "unknown font kind") == 0;
    subsetter_free(&made);
    subsetter_free_pdf_font(&font);
    return !is_right;
}
