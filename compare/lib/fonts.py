"""The fonts of the comparison, and the glyphs that are kept of each."""
import glob
import os
import random
import struct
import subprocess
import sys

TRUETYPE = "/usr/share/fonts/truetype"
OPENTYPE = "/usr/share/fonts/opentype"
TEXMF = "/usr/share/texmf/fonts/opentype/public"

# Debian's package, the file, and the font of a collection.
TRUETYPE_FONTS = [
    ("fonts-dejavu-core", f"{TRUETYPE}/dejavu/DejaVuSans.ttf", 0),
    ("fonts-dejavu-core", f"{TRUETYPE}/dejavu/DejaVuSansMono-Bold.ttf", 0),
    ("fonts-dejavu-extra", f"{TRUETYPE}/dejavu/DejaVuSerifCondensed.ttf", 0),
    ("fonts-liberation", f"{TRUETYPE}/liberation/LiberationSans-Regular.ttf", 0),
    ("fonts-noto-core", f"{TRUETYPE}/noto/NotoSans-Regular.ttf", 0),
    ("fonts-noto-core", f"{TRUETYPE}/noto/NotoNastaliqUrdu-Regular.ttf", 0),
    ("fonts-wqy-zenhei", f"{TRUETYPE}/wqy/wqy-zenhei.ttc", 1),
    ("fonts-wqy-microhei", f"{TRUETYPE}/wqy/wqy-microhei.ttc", 0),
    ("fonts-droid-fallback", f"{TRUETYPE}/droid/DroidSansFallbackFull.ttf", 0),
    ("fonts-babelstone-han", f"{TRUETYPE}/babelstone/BabelStoneHan.ttf", 0),
]
# CFF outlines, SID-keyed; the last two are CID-keyed.
CFF_FONTS = [
    ("fonts-freefont-otf", f"{OPENTYPE}/freefont/FreeSerif.otf", 0),
    ("fonts-linuxlibertine", f"{OPENTYPE}/linux-libertine/LinLibertine_R.otf", 0),
    ("fonts-texgyre", f"{TEXMF}/tex-gyre/texgyretermes-regular.otf", 0),
    ("fonts-lmodern", f"{TEXMF}/lm/lmroman10-regular.otf", 0),
    ("fonts-cantarell", f"{OPENTYPE}/cantarell/Cantarell-Regular.otf", 0),
    ("fonts-urw-base35", f"{OPENTYPE}/urw-base35/C059-Roman.otf", 0),
    ("fonts-mplus", f"{OPENTYPE}/mplus/Mplus1-Regular.otf", 0),
    ("fonts-noto-cjk", f"{OPENTYPE}/noto/NotoSansCJK-Regular.ttc", 0),
    ("fonts-noto-cjk", f"{OPENTYPE}/noto/NotoSerifCJK-Regular.ttc", 0),
]
# As many as the mapper holds.
GLYPHS_AT_MOST = 65535


def install(packages):
    """Installs those of Debian's packages that are missing."""
    missing = [it for it in sorted(set(packages)) if subprocess.run(["dpkg", "-s", it], capture_output=True).returncode]
    if missing:
        print(f"installing {' '.join(missing)}", file=sys.stderr, flush=True)
        subprocess.run(["apt-get", "-o", "DPkg::Lock::Timeout=600", "install", "-y", "-qq", *missing], check=True, stdout=subprocess.DEVNULL)


def u16(data, at):
    return struct.unpack_from(">H", data, at)[0]


def u32(data, at):
    return struct.unpack_from(">I", data, at)[0]


def directory(data, index=0):
    """The tables of a font by tag, as (offset, length)."""
    at = u32(data, 12 + 4 * index) if data[:4] == b"ttcf" else 0
    records = [at + 12 + 16 * k for k in range(u16(data, at + 4))]
    return {data[r:r + 4].decode("latin-1"): (u32(data, r + 8), u32(data, r + 12)) for r in records}


def tables_of(data, index=0):
    """The bytes of each table by tag."""
    return {tag: data[at:at + size] for tag, (at, size) in directory(data, index).items()}


def content(path):
    with open(path, "rb") as file:
        return file.read()


def put(path, data):
    """Writes bytes, or a text, to a file; its path."""
    with open(path, "wb") as file:
        file.write(data.encode() if isinstance(data, str) else data)
    return path


def face_count(data):
    return u32(data, 8) if data[:4] == b"ttcf" else 1


def count_in(data, index):
    """How many glyphs `maxp` of a face says; 1 where there is none."""
    try:
        return u16(data, directory(data, index)["maxp"][0] + 4)
    except LookupError:
        return 1


def glyph_count(path, index):
    return count_in(content(path), index)


def axes(data, index=0):
    """Tag, least, default and greatest value of each axis, in 65536ths."""
    at, size = directory(data, index).get("fvar", (0, 0))
    table = data[at:at + size]
    rows = [u16(table, 4) + u16(table, 10) * k for k in range(u16(table, 8))] if table else []
    return [(table[row:row + 4].decode("latin-1"), *struct.unpack_from(">iii", table, row + 4)) for row in rows]


def label(path, index):
    return os.path.basename(path) + (f" #{index}" if path.endswith(".ttc") else "")


def spread(count, size):
    """`size` glyphs at equal distances over the whole face, in an order that is jumbled (the same in each run)."""
    glyphs = [count * k // size for k in range(size)]
    random.Random(size).shuffle(glyphs)
    return ",".join(map(str, glyphs))


def glyph_sets(count):
    """Names and lists of the glyph sets that a font is large enough for: low numbers in order, and spread ones."""
    kept = min(count, GLYPHS_AT_MOST)
    sets = [("3 low", "68-70" if count > 70 else "1-3"), ("3 spread", spread(kept, 3))]
    sets += [("80 low", "36-115" if count > 115 else f"0-{min(count, 80) - 1}"), ("80 spread", spread(kept, 80))]
    if count >= 2000:
        sets += [("2000 low", "0-1999"), ("2000 spread", spread(kept, 2000))]
    return sets + [("all in order", f"0-{kept - 1}"), ("all jumbled", spread(kept, kept))]


def part_of(items, count):
    """`count` items, spread over all, and jumbled (the same in each run), so that the first of them are spread, too."""
    taken = [items[k * len(items) // count] for k in range(count)] if len(items) > count else list(items)
    random.Random(1).shuffle(taken)
    return taken


def faces():
    """Each face of the machine, as a path and an index."""
    found = []
    for folder, _, names in sorted(os.walk("/usr/share")):
        for name in sorted(names):
            path = os.path.join(folder, name)
            if not name.lower().endswith((".ttf", ".otf", ".ttc")) or os.path.islink(path):
                continue
            with open(path, "rb") as file:
                found += [(path, index) for index in range(face_count(file.read(12)))]
    return found


def variable(folders, only):
    """The variable fonts with `glyf`: Debian's Inter, and those of folders."""
    found = [it for folder in (f"{TRUETYPE}/inter-vf", *folders) for it in sorted(glob.glob(os.path.join(folder, "*"))) if it.endswith((".ttf", ".otf")) and only in os.path.basename(it)]
    return [path for path in found if content(path)[:4] in (b"\0\1\0\0", b"true") and {"fvar", "gvar", "glyf"} <= set(directory(content(path)))]
