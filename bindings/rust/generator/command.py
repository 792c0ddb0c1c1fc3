"""The command `generate`: writes the files or compares them."""
import subprocess
import sys
import tempfile
from pathlib import Path

from .crates import Crates
from .tokens import Refused

# The layout depends on it; it comes with Rust 1.95.
RUSTFMT = "1.9.0"


def rustfmt(*words):
    """Runs rustfmt."""
    try:
        return subprocess.run(["rustfmt", *words], stdout=subprocess.PIPE, stderr=subprocess.PIPE, universal_newlines=True)
    except FileNotFoundError:
        raise Refused(f"rustfmt {RUSTFMT} isn't there (it comes with Rust 1.95)") from None


def check_rustfmt():
    """Fails with another rustfmt than the one that the layout is made by."""
    found = rustfmt("--version").stdout.split()
    version = found[1].split("-")[0] if len(found) > 1 else "without a version"
    if version != RUSTFMT:
        raise Refused(f"rustfmt {RUSTFMT} is wanted (it comes with Rust 1.95), and there is {version}")


def formatted(package, texts):
    """The files in rustfmt's layout."""
    with tempfile.TemporaryDirectory() as folder:
        write(Path(folder), texts)
        run = rustfmt("--edition", "2021", "--config-path", str(package / "rustfmt.toml"), str(Path(folder, "mod.rs")))
        if run.returncode:
            raise Refused(f"rustfmt: {run.stderr.replace(folder, 'src/proved')}")
        return {name: Path(folder, name).read_text(encoding="utf-8") for name in texts}


def write(folder, texts):
    for name, text in texts.items():
        (folder / name).parent.mkdir(parents=True, exist_ok=True)
        (folder / name).write_text(text, encoding="utf-8")


def differing(folder, texts):
    """The files that aren't what the sources give, each with why."""
    there = {path.relative_to(folder) for path in folder.rglob("*") if path.is_file()}
    for name in sorted(there | set(texts)):
        if name not in there:
            yield f"{folder / name} is missing"
        elif name not in texts:
            yield f"{folder / name} isn't generated"
        elif (folder / name).read_text(encoding="utf-8") != texts[name]:
            yield f"{folder / name} isn't what the sources give"


def main(package, words):
    if words not in ([], ["--check"]):
        print("generate [--check]", file=sys.stderr)
        return 2
    folder = package / "src" / "proved"
    try:
        check_rustfmt()
        texts = formatted(package, Crates(package.parent.parent, package).texts())
    except Refused as why:
        print(f"generate: {why}", file=sys.stderr)
        return 2
    if words:
        stale = list(differing(folder, texts))
        print("\n".join(stale), file=sys.stderr, end="\n" if stale else "")
        return 1 if stale else 0
    for path in sorted(folder.rglob("*"), reverse=True):
        if path.is_file() and path.relative_to(folder) not in texts:
            path.unlink()
        elif path.is_dir() and not any(path.iterdir()):
            path.rmdir()
    write(folder, texts)
    return 0
