"""The programs of the READMEs and of examples/ run, and readers take the PDF that each writes; the README's commands run in a clone."""
import functools
import os
import re
import shutil
import subprocess
import sys
import venv

import pytest
from support import ROOT, blocks

TEXT = "Hello, Ελλάδα!"
# (a build from nothing for one short run: optimization takes longer than it saves)
QUICKLY = {"CARGO_INCREMENTAL": "0", "CARGO_PROFILE_DEV_DEBUG": "0", "CARGO_PROFILE_RELEASE_LTO": "off", "CARGO_PROFILE_RELEASE_CODEGEN_UNITS": "16", "CARGO_PROFILE_RELEASE_OPT_LEVEL": "0"}


def read(*path):
    with open(os.path.join(ROOT, *path), encoding="utf-8") as file:
        return file.read()


def write(path, text):
    path.parent.mkdir(parents=True, exist_ok=True)
    path.write_text(text, encoding="utf-8")


def run(room, *words, **env):
    ran = subprocess.run([str(it) for it in words], cwd=room, env={**os.environ, **env}, stdin=subprocess.DEVNULL, stdout=subprocess.PIPE, stderr=subprocess.STDOUT, text=True, errors="replace")
    assert ran.returncode == 0, f"{words}: {ran.stdout[-3000:]}"
    return ran.stdout


def programs(document, language):
    """The examples of a document in a language that write hello.pdf."""
    found = [it for it in blocks(read(document), language) if "hello.pdf" in it]
    assert found, f"{document} has no program that writes hello.pdf"
    return found


def lines_of(text):
    """Its lines, without marks of direction."""
    return [line for line in re.sub("[\f\u202a-\u202e]", "", text).split("\n") if line]


def demand_pdf(room, lines=(TEXT,), seen=(TEXT,), count=1):
    """hello.pdf is sound, its subsets are embedded, the text comes back (from MuPDF as it is seen), and something is drawn."""
    assert "No syntax or stream encoding errors found" in run(room, "qpdf", "--check", "hello.pdf")
    fonts = [line for line in run(room, "pdffonts", "hello.pdf").splitlines()[2:] if not line.startswith("Helvetica ")]
    assert len(fonts) == count and all(re.search(r"^[A-Z]{6}\+.* yes yes yes +\d+ +\d+$", it) for it in fonts), fonts
    assert lines_of(run(room, "pdftotext", "-enc", "UTF-8", "hello.pdf", "-")) == list(lines)
    run(room, "mutool", "draw", "-q", "-F", "txt", "-o", "mupdf.txt", "hello.pdf")
    assert lines_of((room / "mupdf.txt").read_text(encoding="utf-8")) == list(seen)
    run(room, "pdftoppm", "-gray", "-r", "50", "-singlefile", "hello.pdf", "page")
    assert sum(point < 128 for point in (room / "page.pgm").read_bytes().split(b"\n", 3)[-1]) > 100


@functools.lru_cache(maxsize=None)
def library():
    run(ROOT, "flock", "bindings/capi/Makefile", "make", "-s", "-C", "bindings/capi", "all")
    return os.path.join(ROOT, "bindings", "capi", "out")


@functools.lru_cache(maxsize=None)
def package():
    run(ROOT, "flock", "bindings/js/Makefile", "make", "-s", "-C", "bindings/js", "package")
    [name] = [it for it in os.listdir(os.path.join(ROOT, "bindings", "js", "out")) if it.endswith(".tgz")]
    return os.path.join(ROOT, "bindings", "js", "out", name)


def rust(room, program):
    write(room / "src" / "main.rs", program)
    write(room / "Cargo.toml", '[package]\nname = "user"\nversion = "1.0.0"\nedition = "2021"\n\n[dependencies]\n'
          f'subsetter = {{ path = "{ROOT}/bindings/rust", features = ["pdf"] }}\n')
    run(room, "cargo", "run", "--quiet", "--offline", CARGO_TARGET_DIR=os.path.join(ROOT, "out", "examples"), **QUICKLY)


def c(room, program, compiler=("cc", "-std=c11", "-xc"), libraries=("-lz",)):
    write(room / "user", program)
    words = ["-Wall", "-Wextra", "-Werror", "-I", f"{ROOT}/bindings/c", "user", "-xnone", f"{library()}/libsubsetter.so", f"-Wl,-rpath,{library()}"]
    run(room, *compiler, *words, *libraries, "-o", "program")
    run(room, "./program")


def shaped(room, program):
    c(room, program, libraries=("-I/usr/include/harfbuzz", "-lharfbuzz"))


def with_qpdf(room, program, libraries=("-lqpdf",)):
    c(room, program, ("c++", "-std=c++17", "-xc++"), libraries)


def with_podofo(room, program):
    with_qpdf(room, program, ("-lpodofo",))


def python(room, program):
    write(room / "user.py", program)
    run(room, "/usr/bin/python3", "user.py", PYTHONPATH=f"{ROOT}/bindings/python", SUBSETTER_LIBRARY=f"{library()}/libsubsetter.so", PYTHONDONTWRITEBYTECODE="1")


def js(room, program):
    run(room, "npm", "install", "--silent", "--offline", package())
    write(room / "user.mjs", program)
    run(room, "node", "user.mjs")


PROGRAMS = [
    *((rust, "README.md", "rust"), (python, "README.md", "python"), (rust, "bindings/rust/README.md", "rust")),
    *((c, "bindings/capi/README.md", "c"), (python, "bindings/python/README.md", "python"), (js, "bindings/js/README.md", "mjs")),
]


@pytest.mark.parametrize("how, document, language", PROGRAMS)
def test_programs_of_documents(tmp_path, how, document, language):
    for program in programs(document, language):
        how(tmp_path, program)
        demand_pdf(tmp_path)


LINES = ["Hello, Ελλάδα, office", "سلام لا", "हिन्दी क्षत्रिय", "ภาษาไทยที่นี่", "吾輩は猫である"]
SHAPED = [LINES[4], *LINES[:4]], [LINES[0], LINES[1][::-1], *LINES[2:]], 4
EXAMPLES = {"shaped.rs": rust, "shaped.c": shaped, "with_qpdf.cc": with_qpdf, "with_podofo.cc": with_podofo, "shaped.mjs": js}


@pytest.mark.parametrize("name", sorted(it for it in os.listdir(os.path.join(ROOT, "examples")) if it != "README.md"))
def test_examples(tmp_path, name):
    EXAMPLES.get(name, python)(tmp_path, read("examples", name))
    demand_pdf(tmp_path, *(SHAPED if name.startswith("shaped.") else ()))


def test_commands_of_the_readme(tmp_path):
    """The commands of the README's table, in a clone of a bare repository with an empty home, as far as they need no network."""
    bare, clone, home = tmp_path / "bare.git", tmp_path / "clone", tmp_path / "home"
    run(ROOT, "git", "clone", "-q", "--bare", ROOT, bare)
    run(ROOT, "git", "clone", "-q", bare, clone)
    venv.create(home / "venv", with_pip=True)
    path = f"{home}/venv/bin:{os.environ['PATH']}"
    room = tmp_path / "room"
    write(room / "Cargo.toml", '[package]\nname = "user"\nversion = "1.0.0"\nedition = "2021"\n\n[dependencies]\n')
    write(room / "src" / "main.rs", programs("README.md", "rust")[0])
    commands = re.findall(r"^\| [^|]+ \| `([^`]+)` \|", read("README.md").partition("## Install\n")[2].partition("\n## ")[0], re.M)
    assert len(commands) == 5
    env = {**QUICKLY, "HOME": str(home), "PATH": path, "CARGO_HOME": str(home / "cargo"), "CARGO_NET_OFFLINE": "true", "PIP_NO_INDEX": "1", "npm_config_offline": "true", "DESTDIR": ""}
    rustup = os.path.expanduser("~/.rustup")
    if os.path.isdir(rustup):
        env["RUSTUP_HOME"] = rustup
    targets = os.path.join(ROOT, "out", "targets")
    if os.path.isdir(targets):
        os.makedirs(clone / "out", exist_ok=True)
        os.symlink(targets, clone / "out" / "targets")
    for command in commands:
        command = command.replace("CLONE", str(clone)).replace("/usr/local", str(home / "local"))
        run(room, "bash", "-e", "-o", "pipefail", "-c", command, **env)
    run(room, "cargo", "run", "--quiet", **env)
    demand_pdf(room)
    (room / "hello.pdf").unlink()
    write(room / "user.py", programs("README.md", "python")[0])
    run(room, "python", "user.py", **env)
    demand_pdf(room)
    assert (home / "local" / "lib" / "libsubsetter.so").exists() and (home / "local" / "include" / "subsetter.h").exists()
    assert shutil.which("subset_font", path=str(home / "cargo" / "bin")) and sys.version_info
    assert run(clone, "git", "status", "--porcelain") == ""
