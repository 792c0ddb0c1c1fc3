"""The crate as programs take it: from a bare clone, by git, by path, in the place of the crate 0.2.6, and as Cargo packs it.

Cargo has an empty home and no network, and a build reaches neither rt nor Python nor make. Each program subsets a font of the
worked rows and must give that row's bytes.
"""
import os
import re
import subprocess
import tarfile

import pytest
from support import ROOT

SUBSET = "subsetter::subset(&data, 0, &subsetter::GlyphRemapper::new_from_glyphs(&[2])).unwrap()"
MAIN = """fn main() {
    let words: Vec<String> = std::env::args().collect();
    let data = std::fs::read(&words[1]).unwrap();
    std::fs::write(&words[2], ANSWER).unwrap();
}
"""
# (with the default features errors are those of std)
VARIED = "{ let _: &dyn std::error::Error = &subsetter::Error::OutOfMemory; subsetter::subset_with_variations(&data, 0, &[(subsetter::Tag::new(b\"wght\"), f32::NAN)], &subsetter::GlyphRemapper::new_from_glyphs(&[2])).unwrap() }"


def write(path, text):
    path.parent.mkdir(parents=True, exist_ok=True)
    path.write_text(text, encoding="utf-8")


def row():
    """The font of the row `simple`, and its subset with glyph 2."""
    rows = (ROOT / "crates/dev_rows/data/subset.txt").read_text(encoding="utf-8")
    return [bytes.fromhex(re.search(rf"^{it} (\S+)$", rows, re.M)[1]) for it in ("font three_glyphs", "subset simple three_glyphs 0 2 0")]


class Users:
    """A bare clone of the files that git knows of the working tree, a clone of that, and programs that use them."""

    def __init__(self, room):
        self.room, self.font = room, room / "font"
        data, self.wanted = row()
        self.font.write_bytes(data)
        for name in "rt", "python3", "python", "make":
            write(room / "absent" / name, f"#!/bin/sh\necho {name} >> {room}/called\nexit 1\n")
            (room / "absent" / name).chmod(0o755)
        home = os.path.expanduser("~")
        self.environment = {
            **os.environ, "HOME": str(room / "home"), "CARGO_HOME": str(room / "home/cargo"), "PATH": f"{room}/absent:{os.environ['PATH']}",
            "RUSTUP_HOME": os.environ.get("RUSTUP_HOME", f"{home}/.rustup")}
        self.environment.pop("CARGO_TARGET_DIR", None)
        # (a registry without crates)
        (room / "registry").mkdir()
        write(room / ".cargo/config.toml", f'[source.crates-io]\nreplace-with = "none"\n[source.none]\ndirectory = "{room}/registry"\n')
        tree = room / "tree"
        tree.mkdir()
        self.run(f"git ls-files -z | tar -cf - --ignore-failed-read --null -T - | tar -xf - -C {tree}", ROOT)
        self.run("git init -q && git add -A -f && git -c user.name=user -c user.email=user@example.com commit -q -m files", tree)
        self.run(f"git clone -q --bare {tree} subsetter.git && git clone -q subsetter.git clone", room)
        self.git, self.path = f'git = "file://{room}/subsetter.git"', f'path = "{room}/clone/bindings/rust"'

    def run(self, command, folder):
        ran = subprocess.run(["bash", "-o", "pipefail", "-c", command], cwd=folder, env=self.environment, stdout=subprocess.PIPE, stderr=subprocess.STDOUT, stdin=subprocess.DEVNULL, text=True)
        assert ran.returncode == 0, f"{command}: {ran.stdout}"
        return ran.stdout

    def builds(self, name, tables, answer=SUBSET):
        """A program with these tables in its manifest is built without a warning, takes this crate alone, and passes the row."""
        at = self.room / name
        write(at / "Cargo.toml", f'[package]\nname = "user"\nversion = "1.0.0"\nedition = "2021"\n\n{tables}\n')
        write(at / "src/main.rs", MAIN.replace("ANSWER", answer))
        assert "warning" not in self.run("cargo fetch -q && cargo build -q --offline", at)
        self.run(f"target/debug/user {self.font} subset", at)
        assert (at / "subset").read_bytes() == self.wanted
        lock = (at / "Cargo.lock").read_text(encoding="utf-8")
        version = (self.room / "tree/VERSION").read_text(encoding="utf-8").split()[1]
        assert lock.count("[[package]]") == 2 + ('name = "writer"' in lock) and f'name = "subsetter"\nversion = "{version}"\n' in lock
        assert not (self.room / "called").exists()


@pytest.fixture(scope="module")
def users(tmp_path_factory):
    return Users(tmp_path_factory.mktemp("users"))


def test_by_git(users):
    users.builds("git", f'[dependencies]\nsubsetter = {{ {users.git}, features = ["variable-fonts"] }}', VARIED)


def test_by_path(users):
    users.builds("path", f"[dependencies]\nsubsetter = {{ {users.path}, default-features = false }}")


def test_in_the_place_of_0_2_6(users):
    users.builds("patched", f'[dependencies]\nsubsetter = "0.2.6"\n\n[patch.crates-io]\nsubsetter = {{ {users.path} }}')


def test_of_a_dependency_that_asks_for_0_2_6(users):
    writer = users.room / "writer"
    write(writer / "Cargo.toml", '[package]\nname = "writer"\nversion = "1.0.0"\nedition = "2021"\n\n[dependencies]\nsubsetter = "0.2.6"\n')
    write(writer / "src/lib.rs", f"pub fn font_of(data: &[u8]) -> Vec<u8> {{\n    {SUBSET}\n}}\n")
    tables = f'[dependencies]\nwriter = {{ path = "{writer}" }}\n\n[patch.crates-io]\nsubsetter = {{ {users.git} }}'
    users.builds("dependent", tables, "writer::font_of(&data)")


def test_as_it_is_packed(users):
    folder = users.room / "clone/bindings/rust"
    users.run(f"cargo package -q --offline --allow-dirty --no-verify --target-dir {users.room}/packing", folder)
    [packed] = (users.room / "packing/package").glob("*.crate")
    with tarfile.open(packed) as tar:
        names = {it.partition("/")[2] for it in tar.getnames()}
        tar.extractall(users.room / "packed")
    ours = {str(it.relative_to(folder)) for it in (folder / "src").rglob("*.rs")}
    assert {it for it in names if it.startswith("src/")} == ours and {"README.md", "LICENSE", "NOTICE"} <= names
    assert not [it for it in names if it.startswith("tests/") and not it.endswith(".ttf")]
    users.builds("packed-user", f'[dependencies]\nsubsetter = {{ path = "{users.room}/packed/{packed.stem}" }}')
    users.run("cargo build -q --offline --features program", users.room / "packed" / packed.stem)
