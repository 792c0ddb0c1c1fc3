"""The packages: pip builds and installs the sdist, without a network, and each has its files. (tests/test_documents.py installs a clone.)"""

import base64
import hashlib
import re
import sys
import sysconfig
import tarfile
import zipfile
from pathlib import Path

import pytest
from common import MODULE, ROOT, examples, run

sys.path.insert(0, str(MODULE))
import subsetter_build  # noqa: E402

VERSION = (ROOT / "VERSION").read_text().split()[0]
FRONT = f"subsetter-{VERSION}"
INFO = f"{FRONT}.dist-info"
FONT = Path("/usr/share/fonts/truetype/dejavu/DejaVuSans.ttf")


@pytest.fixture(scope="module")
def room(tmp_path_factory):
    """A folder with the sdist, and an environment of Python."""
    room = tmp_path_factory.mktemp("an install")
    subsetter_build.build_sdist(room)
    assert run(sys.executable, "-m", "venv", room / "venv").returncode == 0
    return room


def pip(room, *words, **env):
    return run(room / "venv/bin/python", "-m", "pip", *words, "--no-index", "--no-cache-dir", **env)


def check_wheel(path, platform, traces):
    """The files of a wheel, and that the library names no folder of this machine."""
    library, record = "subsetter/libsubsetter.so", f"{INFO}/RECORD"
    assert path.name == f"{FRONT}-py3-none-{platform}.whl"
    with zipfile.ZipFile(path) as file:
        parts = {name: file.read(name) for name in file.namelist()}
        assert {it.filename for it in file.infolist() if it.external_attr >> 16 & 0o111} == {library}
    wanted = {f"subsetter/{name}": MODULE / "subsetter" / name for name in ("__init__.py", "py.typed")}
    wanted.update({f"{INFO}/licenses/{name}": ROOT / name for name in ("LICENSE", "NOTICE")})
    assert {*parts} == {*wanted, library, record, f"{INFO}/METADATA", f"{INFO}/WHEEL"}
    assert all(parts[name] == source.read_bytes() for name, source in wanted.items())
    sums = [(name, base64.urlsafe_b64encode(hashlib.sha256(data).digest()).decode().rstrip("="), len(data)) for name, data in parts.items() if name != record]
    assert parts[record].decode().splitlines() == [*(f"{name},sha256={sum_of},{size}" for name, sum_of, size in sums), f"{record},,"]
    head, _, text = parts[f"{INFO}/METADATA"].decode().partition("\n\n")
    assert {"Metadata-Version: 2.4", "Name: subsetter", f"Version: {VERSION}", "License-Expression: MIT OR Apache-2.0", "Requires-Python: >=3.8"} <= {*head.split("\n")}
    assert text == (MODULE / "README.md").read_text()
    assert parts[f"{INFO}/WHEEL"].decode().split("\n")[2:] == ["Root-Is-Purelib: false", f"Tag: py3-none-{platform}", ""]
    assert len(parts[library]) > 100_000 and not any(str(trace).encode() in parts[library] for trace in traces)


def test_tags(tmp_path):
    """What pip reads of a wheel before it is built."""
    assert len(subsetter_build.TAGS) == 6
    for target in subsetter_build.TAGS:
        tag = "win_amd64" if target.startswith("x86_64-pc-windows-") else "linux_" + target.removesuffix("-unknown-linux-gnu")
        subsetter_build.prepare_metadata_for_build_wheel(tmp_path, {"target": target})
        assert f"\nTag: py3-none-{tag}\n" in (tmp_path / INFO / "WHEEL").read_text()
    with pytest.raises(SystemExit):
        subsetter_build.build_wheel(tmp_path, {"target": "mips-unknown-linux-gnu"})


def test_sdist(room, tmp_path):
    """(That it lacks nothing the wheel of it shows.)"""
    made = [folder / f"{FRONT}.tar.gz" for folder in (room, tmp_path)]
    assert subsetter_build.build_sdist(tmp_path) == made[1].name and made[0].read_bytes() == made[1].read_bytes()
    with tarfile.open(tmp_path / f"{FRONT}.tar.gz") as file:
        members, names = file.getmembers(), file.getnames()
    own = r"crates/(capi|rust)/(src/.*|Cargo\.toml|Cargo\.lock|build\.rs|README\.md)|subsetter/(__init__\.py|py\.typed)|PKG-INFO|LICENSE|NOTICE|README\.md|pyproject\.toml|subsetter_build\.py"
    assert [it for it in names if not re.fullmatch(f"{FRONT}/({own})", it)] == [] and f"{FRONT}/PKG-INFO" in names
    assert {(it.mtime, it.uid, it.uname, it.mode) for it in members} == {(315532800, 0, "", 0o644)}


def test_wheel_of_the_sdist(room, tmp_path):
    """Built by its own crates, installed, and run in an empty folder."""
    ran = pip(room, "wheel", "-w", tmp_path / "wheel", room / f"{FRONT}.tar.gz")
    assert ran.returncode == 0, ran.stdout
    [wheel] = (tmp_path / "wheel").iterdir()
    check_wheel(wheel, re.sub(r"\W", "_", sysconfig.get_platform()), [tmp_path, "/tmp/", ROOT])
    assert pip(room, "install", wheel).returncode == 0
    (tmp_path / "font.ttf").write_bytes(FONT.read_bytes())
    assert len(examples()) == 5
    for program in examples():
        end = "embedded.font == font, embedded.cids" if "embedded" in program else "font.codes[:4]"
        ran = run(room / "venv/bin/python", "-c", f"{program}\nimport sys; print(subsetter.__file__.startswith(sys.prefix), {end})", folder=tmp_path)
        assert ran.stdout == f"True {'True [1, 2]' if 'cids' in end else '[1, 2, 3, 3]'}\n"


def test_without_cargo(room, tmp_path):
    ran = pip(room, "wheel", "-w", tmp_path, room / f"{FRONT}.tar.gz", PATH=tmp_path)
    assert ran.returncode != 0 and "no cargo on the PATH" in ran.stdout
