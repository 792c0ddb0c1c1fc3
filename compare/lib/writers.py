"""Lines of text made into PDFs by other programs, a page a line. fontconfig finds the fonts of the lines alone, each under a name of its own."""
import html
import os
import re
import shutil
import subprocess

import build
import fonts
from pdf_readers import Unread, ran

CONFIG = '<?xml version="1.0"?><!DOCTYPE fontconfig SYSTEM "fonts.dtd"><fontconfig><dir>%s/fonts</dir><cachedir>%s/cache</cachedir>%s</fontconfig>'
NAMED = ('<match target="scan"><test name="file"><string>%s</string></test><test name="index"><int>0</int></test>'
         '<edit name="family" mode="assign"><string>%s</string></edit><edit name="slant" mode="assign"><int>0</int></edit></match>')
SPACES = " ".join(f'xmlns:{it.rpartition("-")[2]}="urn:oasis:names:tc:opendocument:xmlns:{it}:1.0"' for it in ("office", "style", "text", "xsl-fo-compatible"))


def family(line):
    return "F" + re.sub(r"\W", "", os.path.basename(line.font))


def chosen(line, mark, between):
    return between.join(f"{mark}{it}{mark}" for it in line.features.split(",") if it)


def page(lines, stem):
    """A page a line, in HTML."""
    rows = []
    for line in lines:
        style = f"writing-mode: {'vertical-rl' if line.is_vertical else 'horizontal-tb'}; font: 24pt '{family(line)}'; font-feature-settings: {chosen(line, chr(34), ',') or 'normal'}"
        rows.append(f'<p dir="{"rtl" if line.is_backward else "ltr"}" lang="{line.language}" style="{html.escape(style)}">{html.escape(line.text)}</p>')
    return fonts.put(stem + ".html", '<!DOCTYPE html><meta charset="utf-8"><style>@page { size: 40in 16in } p { white-space: pre } p + p { break-before: page }</style>' + "".join(rows))


def document(lines, stem):
    """The same as a text document."""
    ways = {it: f'<style:page-layout style:name="{it}"><style:page-layout-properties compatible:page-width="40in" compatible:page-height="16in" style:writing-mode="{it}"/></style:page-layout>' for it in ("lr-tb", "rl-tb", "tb-rl")}
    masters = "".join(f'<style:master-page style:name="M-{it}" style:page-layout-name="{it}"/>' for it in ways)
    styles, rows = [], []
    for k, line in enumerate(lines):
        face, way = html.escape(family(line) + ":" * bool(line.features) + chosen(line, "", "&")), "tb-rl" if line.is_vertical else "rl-tb" if line.is_backward else "lr-tb"
        text = "".join(f' {name}{end}="{value}"' for end in ("", "-asian", "-complex") for name, value in (("style:font-family" if end else "compatible:font-family", face), ("style:font-size" if end else "compatible:font-size", "24pt")))
        styles.append(f'<style:style style:name="P{k}" style:family="paragraph" style:master-page-name="M-{way}"><style:paragraph-properties style:writing-mode="{way}"/>'
                      f'<style:text-properties{text} compatible:language="{line.language or "en"}" compatible:country="none"/></style:style>')
        rows.append(f'<text:p text:style-name="P{k}">{html.escape(line.text)}</text:p>')
    return fonts.put(stem + ".fodt", f'<?xml version="1.0"?><office:document {SPACES} office:version="1.2" office:mimetype="application/vnd.oasis.opendocument.text"><office:automatic-styles>{"".join([*ways.values(), *styles])}</office:automatic-styles>'
                     f'<office:master-styles>{masters}</office:master-styles><office:body><office:text>{"".join(rows)}</office:text></office:body></office:document>')


def marked(line):
    """The same for Pango."""
    return f"<span lang='{line.language or 'en'}' font_features='{chosen(line, '', ',')}'>{html.escape(line.text)}</span>"


# Each program, its command, and the words that it is called with for lines (Pango for one alone) and the stem of a file.
WRITERS = {
    "Chromium": ("chromium", lambda lines, stem: ["--headless", "--no-sandbox", "--disable-gpu", f"--user-data-dir={stem}.profile", "--no-pdf-header-footer", f"--print-to-pdf={stem}.pdf", f"file://{page(lines, stem)}"]),
    "LibreOffice": ("soffice", lambda lines, stem: [f"-env:UserInstallation=file://{stem}.profile", "--headless", "--convert-to", "pdf", "--outdir", os.path.dirname(stem), document(lines, stem)]),
    "Pango": ("pango-view", lambda lines, stem: ["--no-display", "--markup", f"--font={family(lines[0])}, 24", f"--text={marked(lines[0])}", f"--output={stem}.pdf", *["--gravity=east", "--rotate=-90"] * lines[0].is_vertical]),
    "WeasyPrint": ("weasyprint", lambda lines, stem: [page(lines, stem), stem + ".pdf"]),
}


def there(skipped):
    """Installs the programs that aren't skipped: those that are there, and those that aren't."""
    asked = {name: command for name, (command, _) in WRITERS.items() if name not in skipped}
    subprocess.run([os.path.join(build.ROOT, "tools", "install"), *asked.values()])
    return [[name for name, command in asked.items() if bool(shutil.which(command)) == is_there] for is_there in (True, False)]


def with_fonts(lines, room):
    """Lays out the fonts of the lines: the configuration that names them."""
    os.makedirs(os.path.join(room, "fonts"))
    # (LibreOffice opens no collection by a link)
    places = {family(it): shutil.copy(it.font, os.path.join(room, "fonts")) for it in lines}
    return fonts.put(os.path.join(room, "fonts.conf"), CONFIG % (room, room, "".join(NAMED % (path, name) for name, path in places.items())))


def write(name, lines, config, room):
    """The pages that a program makes of lines: of each the line, a file and a number. One with two fonts is left out."""
    (command, words), found = WRITERS[name], []
    for k, group in enumerate([[it] for it in lines] if name == "Pango" else [lines]):
        stem = os.path.join(room, f"{name}{k}")
        ran("env", f"FONTCONFIG_FILE={config}", command, *words(group, stem))
        used = [set(re.findall('<font name="([^"]*)"', it)) for it in ran("mutool", "draw", "-q", "-F", "stext", stem + ".pdf").decode().split("<page ")[1:]]
        if len(used) != len(group):
            raise Unread(f"{name} makes {len(used)} pages of {len(group)} lines")
        found += [(line, stem + ".pdf", number) for number, (line, it) in enumerate(zip(group, used), 1) if len(it) == 1]
    return found
