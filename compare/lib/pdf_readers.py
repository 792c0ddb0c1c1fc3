"""The PDF readers of Debian that the comparisons of PDF fonts ask: whether a file is in order, its text, its picture."""
import base64
import io
import json
import os
import re
import shutil
import subprocess
import tempfile
import unicodedata
from fractions import Fraction

import build
import fonts
import pdf_file

CLASSES = ":".join(f"/usr/share/java/{it}.jar" for it in "preflight pdfbox2 pdfbox2-tools fontbox2 xmpbox commons-logging javax.activation jaxb-api".split())
PACKAGES = ["qpdf", "poppler-utils", "mupdf-tools", "ghostscript", "python3-pil", "python3-fonttools"]
PDFBOX = ["libpdfbox2-java", "libactivation-java", "libjaxb-api-java"] + ([] if shutil.which("java") else ["default-jre-headless"])
PDFJS = ["libjs-pdf"] + ([] if shutil.which("node") else ["nodejs"])
DPI = 100


class Unread(Exception):
    """What a reader says where it doesn't read a file."""


def ran(*words, folder=None):
    """What a program prints, as bytes; Unread where it fails."""
    done = subprocess.run(words, cwd=folder, stdin=subprocess.DEVNULL, stdout=subprocess.PIPE, stderr=subprocess.PIPE)
    if done.returncode:
        said = (done.stderr or done.stdout).decode(errors="replace").split("\n")
        raise Unread(f"{os.path.basename(words[0])} ends with {done.returncode}: {said[0][:200]}")
    return done.stdout


# ---- qpdf

def faults_by_qpdf(path):
    """What `qpdf --check` finds, or nothing."""
    done = subprocess.run(["qpdf", "--check", path], stdout=subprocess.PIPE, stderr=subprocess.STDOUT, text=True)
    if done.returncode == 0 and "WARNING" not in done.stdout and "No syntax or stream encoding errors found" in done.stdout:
        return []
    return [f"qpdf: {line}" for line in done.stdout.splitlines() if "WARNING" in line or "ERROR" in line][:2] or ["qpdf refuses it"]


def objects_of(path):
    """The objects of a file as qpdf reads them, by `N 0 R`, and its trailer. Numbers are fractions."""
    said = json.loads(ran("qpdf", "--json=2", "--json-stream-data=inline", "--decode-level=none", path), parse_float=Fraction)
    return {name.removeprefix("obj:"): it for name, it in said["qpdf"][1].items()}


def stream(objects, reference):
    """The bytes of a stream, without its filter, and its dictionary."""
    found = objects[reference]["stream"]
    return base64.b64decode(found["data"]), found["dict"]


# ---- text

def letters(text):
    """A text without spaces, controls and marks of direction."""
    return "".join(it for it in text if not it.isspace() and unicodedata.category(it) not in ("Cc", "Cf"))


# What prints the text of a file.
TEXTS = {
    "Poppler": ["pdftotext", "-enc", "UTF-8", "FILE", "-"],
    "MuPDF": ["mutool", "draw", "-q", "-F", "txt", "FILE"],
    "Ghostscript": ["gs", "-q", "-dSAFER", "-dNOPAUSE", "-dBATCH", "-sDEVICE=txtwrite", "-sOutputFile=-", "FILE"],
    "PDFBox": ["java", "-XX:TieredStopAtLevel=1", "-Djava.awt.headless=true", "-cp", CLASSES, "org.apache.pdfbox.tools.ExtractText", "-console", "-encoding", "UTF-8", "FILE"],
    "pdf.js": ["node", os.path.join(build.DRIVERS, "pdfjs.mjs"), "FILE"],
}


def text_by(reader, path, *more):
    program, *words = TEXTS[reader]
    return ran(program, *more, *(path if it == "FILE" else it for it in words)).decode("utf-8", "replace")


# What a page says that is put after each page of a joined file.
MARK = "endofpage"


def joined(pages, path):
    """The path of a file of these pages (of a file, and of a number), with a page that marks its end after each."""
    pdf = pdf_file.Pdf()
    helvetica = pdf.put("<< /Type /Font /Subtype /Type1 /BaseFont /Helvetica >>")
    mark = fonts.put(path + ".mark", pdf_file.pages(pdf, (200, 100), [helvetica], [f"BT /F0 24 Tf 20 40 Td ({MARK}) Tj ET"]))
    ran("qpdf", "--empty", "--pages", *(word for it in pages for word in (it[0], str(it[1]), mark, "1")), "--", path)
    return path


def texts_by(reader, path):
    """The text of each page of a joined file, by one start of a reader."""
    return text_by(reader, path).split(MARK)[:-1]


def picture(data):
    """A picture in grey, of PGM bytes."""
    from PIL import Image

    return Image.open(io.BytesIO(data)).convert("L")


# What each reader is called with, where it draws DPI pixels an inch.
READERS = {
    "MuPDF": ["mutool", "draw", "-r", "DPI", "-c", "gray", "-F", "pgm", "-o", "FOLDER/%d.pgm"],
    "Poppler": ["pdftoppm", "-r", "DPI", "-gray"],
    "Ghostscript": ["gs", "-q", "-dSAFER", "-dBATCH", "-dNOPAUSE", "-sDEVICE=pgmraw", "-rDPI", "-dTextAlphaBits=4", "-dGraphicsAlphaBits=4", "-sOutputFile=FOLDER/%d.pgm"],
}


def drawn(reader, path, dpi=DPI):
    """A reader's pictures of the pages of a file, and the lines that it says."""
    with tempfile.TemporaryDirectory(prefix="drawn-") as folder:
        words = [word.replace("DPI", str(dpi)).replace("FOLDER", folder) for word in READERS[reader]] + [path] + [f"{folder}/"] * (reader == "Poppler")
        said = subprocess.run(words, stdin=subprocess.DEVNULL, capture_output=True, text=True, errors="replace")
        lines = {line.replace(path, "") for line in (said.stdout + said.stderr).splitlines() if line and not line.startswith("page ")}
        found = [os.path.join(folder, it) for it in sorted(os.listdir(folder))]
        return [picture(fonts.content(it)) for it in found], lines | {f"status {said.returncode}"} - {"status 0"}


def ink(it, level):
    """Which pixels are darker than a level, as white ones."""
    return it.point(lambda grey: 255 if grey < level else 0)


def ink_apart(one, other, most=2):
    """How many pixels of ink of either picture have no ink of the other within `most` pixels."""
    from PIL import ImageChops, ImageFilter

    if one.size != other.size:
        return max(one.size[0] * one.size[1], 1)
    far = 0
    for here, there in ((one, other), (other, one)):
        near = ink(there, 235).filter(ImageFilter.MaxFilter(2 * most + 1))
        far += ImageChops.subtract(ink(here, 128), near).histogram()[255]
    return far


def is_blank(it):
    return it.getextrema()[0] > 200


# ---- PDFBox's preflight

def preflight(paths, room):
    """What PDFBox's preflight says of files as PDF/A-1b: a list of faults for each."""
    if not paths:
        return []
    listed = fonts.put(os.path.join(room, "preflight"), "\n".join(paths) + "\n")
    words = ["java", "-cp", CLASSES, "org.apache.pdfbox.preflight.Validator_A1b", "xml", "group", listed]
    done = subprocess.run(words, stdout=subprocess.PIPE, stderr=subprocess.PIPE, text=True)
    report = listed + ".preflight.xml"
    if not os.path.exists(report):
        raise Unread(f"PDFBox's preflight makes no report: {(done.stderr or done.stdout)[-500:]}")
    said = dict(re.findall(r'<preflight name="([^"]*)"[^>]*>(.*?)</preflight>', fonts.content(report).decode(errors="replace"), re.S))
    if sorted(said) != sorted(map(os.path.basename, paths)):
        raise Unread(f"PDFBox's preflight reports {len(said)} files, not {len(paths)}")
    return [faults_in(said[os.path.basename(it)]) for it in paths]


def faults_in(report):
    if re.search(r"<isValid[^>]*>true</isValid>", report):
        return []
    faults = re.findall(r"<code>(.*?)</code>\s*<details>(.*?)</details>", report, re.S)
    return [f"preflight: {code} {details}" for code, details in faults[:2]] or ["preflight: not valid"]
