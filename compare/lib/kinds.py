"""Fonts that differ in kind: small ones as they are, large ones cut down to some glyphs by fontTools.

What is cut down keeps its composites, hinting, names, subroutines and font dicts. Collections are put together of such
fonts, and of the least fonts of made.py each is a kind. The fonts are made anew where build/kinds doesn't have them.
"""
import glob
import io
import os

import fonts
import made
from build import BUILD
from fonts import OPENTYPE, TEXMF, TRUETYPE

FOLDER = os.path.join(BUILD, "kinds")
INTER = f"{TRUETYPE}/inter-vf"
# Kind, Debian's package, the file, the font of a collection, and how many glyphs are kept (0: the file as it is).
WHOLE_AND_CUT = [
    ("TrueType", "fonts-noto-core", f"{TRUETYPE}/noto/NotoSansOgham-Regular.ttf", 0, 0),
    ("TrueType", "fonts-noto-core", f"{TRUETYPE}/noto/NotoSansLycian-Regular.ttf", 0, 0),
    ("TrueType", "fonts-noto-core", f"{TRUETYPE}/noto/NotoSansRunic-Regular.ttf", 0, 0),
    ("TrueType", "fonts-noto-core", f"{TRUETYPE}/noto/NotoSansHebrew-Regular.ttf", 0, 0),
    ("TrueType", "fonts-noto-core", f"{TRUETYPE}/noto/NotoSerifGrantha-Regular.ttf", 0, 150),
    ("TrueType", "fonts-noto-core", f"{TRUETYPE}/noto/NotoNastaliqUrdu-Regular.ttf", 0, 150),
    ("TrueType", "fonts-noto-mono", f"{TRUETYPE}/noto/NotoSansMono-Regular.ttf", 0, 300),
    ("TrueType", "fonts-liberation", f"{TRUETYPE}/liberation/LiberationMono-Regular.ttf", 0, 200),
    ("TrueType", "fonts-dejavu-core", f"{TRUETYPE}/dejavu/DejaVuSans.ttf", 0, 300),
    ("TrueType", "fonts-freefont-ttf", f"{TRUETYPE}/freefont/FreeSans.ttf", 0, 300),
    ("TrueType", "fonts-wqy-zenhei", f"{TRUETYPE}/wqy/wqy-zenhei.ttc", 1, 200),
    ("TrueType", "fonts-droid-fallback", f"{TRUETYPE}/droid/DroidSansFallbackFull.ttf", 0, 150),
    ("TrueType", "fonts-babelstone-han", f"{TRUETYPE}/babelstone/BabelStoneHan.ttf", 0, 100),
    ("TrueType", "fonts-ipafont-gothic", f"{OPENTYPE}/ipafont-gothic/ipag.ttf", 0, 150),
    ("SID", "fonts-texgyre", f"{TEXMF}/tex-gyre/texgyretermes-regular.otf", 0, 0),
    ("SID", "fonts-cantarell", f"{OPENTYPE}/cantarell/Cantarell-Regular.otf", 0, 0),
    ("SID", "fonts-lmodern", f"{TEXMF}/lm/lmmono10-regular.otf", 0, 0),
    ("SID", "fonts-urw-base35", f"{OPENTYPE}/urw-base35/C059-Roman.otf", 0, 0),
    ("SID", "fonts-mplus", f"{OPENTYPE}/mplus/MplusCode60-Thin.otf", 0, 0),
    ("SID", "fonts-mplus", f"{OPENTYPE}/mplus/Mplus1-Regular.otf", 0, 300),
    ("SID", "fonts-linuxlibertine", f"{OPENTYPE}/linux-libertine/LinLibertine_R.otf", 0, 300),
    ("SID", "fonts-freefont-otf", f"{OPENTYPE}/freefont/FreeSerif.otf", 0, 300),
    ("SID", "fonts-texgyre-math", f"{TEXMF}/tex-gyre-math/texgyretermes-math.otf", 0, 300),
    ("CID", "fonts-noto-cjk", f"{OPENTYPE}/noto/NotoSansCJK-Regular.ttc", 0, 200),
    ("CID", "fonts-noto-cjk", f"{OPENTYPE}/noto/NotoSansCJK-Bold.ttc", 4, 100),
    ("CID", "fonts-noto-cjk", f"{OPENTYPE}/noto/NotoSansCJK-Regular.ttc", 7, 60),
    ("CID", "fonts-noto-cjk", f"{OPENTYPE}/noto/NotoSerifCJK-Regular.ttc", 0, 200),
    ("variable", "fonts-inter-variable", f"{INTER}/Inter.var.ttf", 0, 200),
    ("variable", "fonts-inter-variable", f"{INTER}/Inter-italic.var.ttf", 0, 150),
    ("variable", "fonts-inter-variable", f"{INTER}/InterDisplay-roman.var.ttf", 0, 60),
]
# What collections are put together of: file, font and glyphs as above.
NOTO, CJK = f"{TRUETYPE}/noto/NotoSans%s-Regular.ttf", f"{OPENTYPE}/noto/NotoSansCJK-Regular.ttc"
COLLECTIONS = {
    "three TrueType": [(NOTO % it, 0, 0) for it in ("Ogham", "Runic", "Lycian")],
    "wqy-microhei, two faces": [(f"{TRUETYPE}/wqy/wqy-microhei.ttc", face, 120) for face in (0, 1)],
    "NotoSansCJK, three faces": [(CJK, face, 60) for face in (0, 1, 3)],
    "TrueType, SID and CID": [(NOTO % "Ogham", 0, 0), (f"{OPENTYPE}/mplus/MplusCode60-Thin.otf", 0, 0), (CJK, 7, 60)],
    "variable and SID": [(f"{INTER}/InterDisplay-roman.var.ttf", 0, 60), (f"{TEXMF}/lm/lmmono10-regular.otf", 0, 0)],
}
# (a Notice that is a standard string is handled otherwise by both)
LEAST = {name: font for name, (font, _) in made.WORKED.items()}
LEAST["a CID-keyed font"] = made.cff_font(made.cff([b"\x0e"] * 7, dicts=made.FONT_DICTS, select=b"\0\3\0\0\0\0\7\3"))
PACKAGES = sorted({it[1] for it in WHOLE_AND_CUT} | {"fonts-wqy-microhei", "python3-fonttools"})
DROPPED = "GSUB GPOS GDEF BASE JSTF VORG vhea vmtx DSIG EBDT EBLC EBSC FFTM STAT kern MATH".split()
# A variable font that is larger than this is cut down too, to fewer glyphs the larger it is.
LARGE, GLYPHS = 120000, 50000000


def cut(path, index, count):
    """The bytes of a font of `count` glyphs, evenly chosen, and what these need."""
    from fontTools import subset

    options = subset.Options(layout_features=[], notdef_outline=True, glyph_names=True, font_number=index, name_IDs=["*"],
                             name_languages=["*"], name_legacy=True, legacy_kern=False, recalc_timestamp=False)
    options.drop_tables = DROPPED
    font = subset.load_font(path, options)
    total = font["maxp"].numGlyphs
    subsetter = subset.Subsetter(options)
    # (the first ones, where the accented letters stand, and some of all)
    subsetter.populate(gids=sorted({*range(min(total, count // 3)), *(total * k // count for k in range(count))}))
    subsetter.subset(font)
    file = io.BytesIO()
    subset.save_font(font, file, options)
    return file.getvalue()


def collection(parts):
    """A collection of these fonts, in which tables of the same bytes are shared."""
    from fontTools.ttLib import TTCollection, TTFont

    file, made_of = io.BytesIO(), TTCollection()
    made_of.fonts = [TTFont(io.BytesIO(it), lazy=True, recalcTimestamp=False) for it in parts]
    made_of.save(file, shareTables=True)
    return file.getvalue()


def stored(name, make):
    """The path of a file in build/kinds, which is made where it is missing."""
    path = os.path.join(FOLDER, name)
    if not os.path.exists(path):
        os.makedirs(FOLDER, exist_ok=True)
        os.replace(fonts.put(f"{path}.{os.getpid()}", make()), path)
    return path


def single(path, index, count):
    """The path of a font of one face: the file, or what is cut of it."""
    stem, ending = os.path.splitext(os.path.basename(path))
    face = f"-{index}" if path.endswith(".ttc") else ""
    ending = ".otf" if "opentype" in path and "ipa" not in path else ".ttf"
    return stored(f"{stem}{face}-{count}{ending}", lambda: cut(path, index, count) if count else fonts.content(path))


def all_fonts(folders=()):
    """The fonts as (kind, path); in these folders there may be further variable ones."""
    found = [(kind, single(path, index, count)) for kind, _, path, index, count in WHOLE_AND_CUT]
    for name, parts in COLLECTIONS.items():
        found.append(("collection", stored(f"{name}.ttc", lambda: collection([fonts.content(single(*it)) for it in parts]))))
    # (no subset is made of the second format of CFF, so the table's tag alone matters)
    sid = fonts.content(single(*WHOLE_AND_CUT[18][2:]))
    found.append(("CFF2", stored("second format.otf", lambda: sid.replace(b"CFF ", b"CFF2", 1))))
    for name, font in LEAST.items():
        found.append(("made", stored(f"{name}.font", lambda: font)))
    for folder in folders:
        for path in sorted(it for it in glob.glob(os.path.join(folder, "*")) if it.endswith((".otf", ".ttf"))):
            size = os.path.getsize(path)
            found.append(("variable", single(path, 0, min(100, GLYPHS // size) if size > LARGE else 0)))
    return found
