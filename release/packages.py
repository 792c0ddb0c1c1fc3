"""Puts files together into packages, so that the same files always give the same bytes: names in order, one date for all, one owner, no name of a
machine. A tree is a dict from a path to a `File`."""
import gzip
import hashlib
import io
import re
import subprocess
import tarfile
import tempfile
import zipfile
from typing import NamedTuple, Optional

# The date of every file in a package: 1980-01-01, the first that a zip can say (bindings/python/subsetter_build.py writes those).
DATE, DATE_TEXT = 315532800, "1980-01-01T00:00:00Z"
# Of manylinux the tags that have a second, older name. Those before 2.17 are for x86-64 alone.
OLDER_NAMES = {(2, 5): "manylinux1", (2, 12): "manylinux2010", (2, 17): "manylinux2014"}


class File(NamedTuple):
    data: bytes
    is_program: bool = False
    link: Optional[str] = None

    @property
    def mode(self):
        return 0o777 if self.link is not None else 0o755 if self.is_program else 0o644


def tar_gz(tree):
    """A tar of a tree, compressed; its owner is number 0 without a name, and gzip's own head has no name and no date."""
    packed = io.BytesIO()
    with gzip.GzipFile(filename="", mode="wb", compresslevel=9, fileobj=packed, mtime=0) as out, tarfile.open(fileobj=out, mode="w", format=tarfile.USTAR_FORMAT) as tar:
        for path, file in sorted(tree.items()):
            head = tarfile.TarInfo(path)
            head.mtime, head.mode, head.size = DATE, file.mode, len(file.data)
            head.type, head.linkname = (tarfile.REGTYPE, "") if file.link is None else (tarfile.SYMTYPE, file.link)
            tar.addfile(head, io.BytesIO(file.data))
    return packed.getvalue()


def sha256(data):
    return hashlib.sha256(data).hexdigest()


def unpacked(name, data):
    """The files of a package by their paths in it, as far as they are no links."""
    if name.endswith((".whl", ".zip")):
        with zipfile.ZipFile(io.BytesIO(data)) as file:
            return {it: file.read(it) for it in file.namelist()}
    with tarfile.open(fileobj=io.BytesIO(data), mode="r:gz") as tar:
        return {it.name: tar.extractfile(it).read() for it in tar if it.isfile()}


# ---- what a shared library or a program needs of glibc

def needed(data):
    """The oldest glibc that has each symbol which these bytes need, as (2, 17)."""
    with tempfile.NamedTemporaryFile(prefix="elf-") as file:
        file.write(data)
        file.flush()
        said = subprocess.run(["readelf", "-WV", file.name], check=True, capture_output=True, text=True).stdout
    names = set(re.findall(r"Name: (\S+)\s+Flags:", said.partition("Version needs section")[2]))
    odd = {it for it in names if not re.fullmatch(r"(GLIBC|GCC)_[0-9.]+", it)}
    if odd:
        raise ValueError(f"it needs more than glibc: {', '.join(sorted(odd))}")
    return max((tuple(map(int, it[6:].split(".")[:2])) for it in names if it.startswith("GLIBC_")), default=(2, 0))


def glibc(data):
    return ".".join(map(str, needed(data)))


def manylinux(data, processor):
    """The tags of a wheel's platform: the oldest manylinux that its library runs on."""
    olds = [it for it in sorted(OLDER_NAMES) if it >= needed(data) and (processor == "x86_64" or it >= (2, 17))]
    level = olds[0] if olds else needed(data)
    return [f"manylinux_{level[0]}_{level[1]}_{processor}", *(f"{OLDER_NAMES[it]}_{processor}" for it in olds[:1])]
