"""The generator of the crate, bindings/rust/generate: what it writes and refuses for a small repository, and that no function
or impl of the committed crate lost a token of its source.

What it writes of the real sources is compared by `generate --check`. It needs rustfmt as `generate` does.
"""
import os
import re
import shutil
import subprocess
import sys
from collections import Counter
from pathlib import Path

import pytest

REPOSITORY = Path(__file__).resolve().parent.parent
PACKAGE = REPOSITORY / "bindings" / "rust"
PROVED = PACKAGE / "src" / "proved"
sys.dont_write_bytecode = True
sys.path.insert(0, str(PACKAGE))

from generator.crates import Crates  # noqa: E402
from generator.source import Source  # noqa: E402
from generator.tokens import Refused  # noqa: E402

LIB_RS = """mod proved;
mod rattle;
#[cfg(feature = "variable-fonts")]
mod varied;
use crate::proved::low;
pub fn call(bytes: &[u8]) -> Option<u8> { low::front(bytes) }
"""
VARIED_RS = "pub fn varied(bytes: &[u8]) -> u8 { crate::proved::low::last_byte(bytes) }\n"
LOW = """//! The low crate. Its laws are proved.
#![tactic(auto)]

ghost use Rattle.std.specs.Prelude.{◌≡◌, ◌+◌};

use std::marker::Model;

#[derive(Clone, Copy, Drop)]
pub struct Pair {
    pub low: u8,
    high: u8,
    ghost ordered: { low ≤ high },
}

impl Model for Pair {
    ghost Value = { ℕ };
}

pub trait Read {
    ghost size: { ℕ };

    fn twice(&self) -> u8
        requires room { size ≤ 4 }
        // A comment between the two.
        ensures { result ≡ size + size }
    {
        2
    }
}

impl Read for Pair {
    pub ghost size = { 1 };
}

/// The front, of which [`is_law`] and [`Pair`] say more. A law says that it is the first byte.
pub fn front(bytes: &[u8]) -> Option<u8>
    ensures* value { result ≡ first bytes.now }
{
    let [first, .., mut last] = bytes else {
        return None;
    };
    let pair = Pair { low: *first, high: *last };
    last = &pair.low;
    for i in 0..1 {
        drop(last);
    }
    match pair.low {
        0..4 | 7 => Some(pair.high),
        _ => Some(pair.twice()),
    }
}

/// The last byte.
pub fn last_byte(bytes: &[u8]) -> u8 {
    // There is one, as the caller's contract says.
    *bytes.last().unwrap()
}

/// A law.
#[tactic(auto, using(crate::proofs::Law))]
pub fn is_law()
    ensures { Law }
{}

#[cfg(test)]
mod tests {
    fn holds() {}
}
"""
REVIEWED = "unwrap crates/low/src/lib.rt last_byte: the caller has a byte\n"


class Small:
    """A small repository."""

    def __init__(self, folder):
        self.folder = folder
        shutil.copytree(PACKAGE / "generator", folder / "bindings/rust/generator", ignore=shutil.ignore_patterns("__pycache__"))
        for name in "generate", "rustfmt.toml":
            shutil.copy(PACKAGE / name, folder / "bindings/rust" / name)
        for name, text in ("lib", LIB_RS), ("varied", VARIED_RS), ("rattle/mod", "//! The stand-in.\n"):
            self.write(f"bindings/rust/src/{name}.rs", text)
        self.write("crates.txt", "low:\n")
        self.write("bindings/rust/generator/reviewed.txt", REVIEWED)
        self.write("crates/low/src/lib.rt", LOW)

    def write(self, name, text):
        (self.folder / name).parent.mkdir(parents=True, exist_ok=True)
        (self.folder / name).write_text(text, encoding="utf-8")

    def read(self, name):
        return (self.folder / "bindings/rust/src/proved" / name).read_text(encoding="utf-8")

    def run(self, *words, path=os.environ["PATH"]):
        """The status and the messages of the program."""
        run = subprocess.run([sys.executable, self.folder / "bindings/rust/generate", *words], capture_output=True, text=True, env={**os.environ, "PATH": path}, check=False)
        assert run.stdout == ""
        return run.returncode, run.stderr

    def texts(self):
        return Crates(self.folder, self.folder / "bindings/rust").texts()

    def refused(self):
        """Why the sources are refused: one line, which begins with the place."""
        with pytest.raises(Refused) as raised:
            self.texts()
        assert "\n" not in str(raised.value)
        return str(raised.value)

    def given(self, source, call="called", varied=""):
        """What is written of a crate `other`, of which a function is called, and another one with the feature variable-fonts."""
        self.write("crates.txt", "low:\nother: low\n")
        self.write("crates/other/src/lib.rt", f"//! Another.\n{source}")
        self.write("bindings/rust/src/lib.rs", LIB_RS + f"\npub fn other() {{\n    crate::proved::other::{call}();\n}}\n")
        more = f"\npub fn other() {{\n    crate::proved::other::{varied}();\n}}\n" if varied else ""
        self.write("bindings/rust/src/varied.rs", VARIED_RS + more)
        return self.texts()[Path("other/mod.rs")]


@pytest.fixture(name="small")
def small_repository(tmp_path):
    return Small(tmp_path)


# ---- the program


def test_it_writes_what_it_then_checks(small):
    assert small.run() == (0, "")
    written, proved = small.read("low/mod.rs"), "bindings/rust/src/proved/"
    assert not re.search("ghost|ensures|requires|tactic|Model|A law", written) and "\npub mod low;\n" in small.read("mod.rs")
    assert '#[cfg(feature = "variable-fonts")]\npub fn last_byte(' in written and "// (the caller has a byte)" in written
    assert small.run("--check") == (0, "")
    small.write(proved + "low/mod.rs", written + "\n")
    small.write(proved + "low/more.rs", "//! More.\n")
    (small.folder / proved / "mod.rs").unlink()
    whys = ("low/mod.rs", "isn't what the sources give"), ("low/more.rs", "isn't generated"), ("mod.rs", "is missing")
    assert small.run("--check") == (1, "".join(f"{small.folder.resolve()}/{proved}{name} {why}\n" for name, why in whys))
    assert small.run() == (0, "")
    assert {str(it.relative_to(small.folder / proved)) for it in (small.folder / proved).rglob("*.*")} == {"low/mod.rs", "mod.rs"}


def test_what_is_refused_is_not_written(small):
    assert small.run("low") == (2, "generate [--check]\n")
    assert small.run(path="/nowhere") == (2, "generate: rustfmt 1.9.0 isn't there (it comes with Rust 1.95)\n")
    small.write("bin/rustfmt", "#!/bin/sh\necho rustfmt 1.8.0-stable\n")
    (small.folder / "bin/rustfmt").chmod(0o755)
    assert small.run(path=f"{small.folder}/bin:/usr/bin:/bin")[1].startswith("generate: rustfmt 1.9.0 is wanted")
    small.write("crates/low/src/lib.rt", LOW + "fn x() { prove!(1); }\n")
    assert small.run() == (2, f"generate: crates/low/src/lib.rt:{LOW.count(chr(10)) + 1}: prove! is left over\n")
    assert not (small.folder / "bindings/rust/src/proved").exists()


# ---- what it refuses

IN_BODY, ABOVE, IN_TRAIT, AT_TOP, LAW = "    last = &pair.low;", "/// The last byte.", "pub trait Read {", "use std::marker::Model;", "    ensures { Law }\n{}"
# A line, what is inserted after it, and why that is refused.
REFUSED = [
    (IN_BODY, "    prove!(last == 1);", "prove! is left over"), (IN_BODY, "    ghost let x = 1;", "ghost is left over"), (IN_BODY, "    let x = ghost;", "ghost is left over"),
    (IN_BODY, "    requires { last }", "requires is left over"), (IN_BODY, "    let requires = 1;", "requires is left over"), (IN_BODY, "    let x = T::Model;", "Model is left over"),
    *((IN_BODY, f"    let x = {word};", f"{word} is left over") for word in ("ensures", "tactic", "also_owns", "thiserror", "cfg_attr")), (LAW, "also_owns {}", "isn't known"),
    *((ABOVE, text, "cfg(test) alone is known") for text in ('#[cfg(feature = "std")]', "#[cfg(not(test))]", "#[cfg_attr(test, inline)]", "#[cfg(any(test, unix))]")),
    (IN_BODY, "    #[cfg(test)]\n    return None;", "attribute"), (IN_BODY, "    if cfg!(debug_assertions) {}", "cfg is left over"), (IN_TRAIT, "    #[cfg(windows)]\n    fn more(&self);", "cfg(test) alone is known"),
    *((IN_BODY, f"    {name}!(true);", f"{name}! is a macro") for name in ("assert", "debug_assert", "assert_eq", "panic", "println", "dbg", "include_str", "concat")),
    *((ABOVE, f"#[{name}]", "attribute") for name in ("no_mangle", "track_caller", "cold", "deprecated", "target_feature", "path")), (IN_BODY, "    #[allow(unused)]\n    let x = 1;", "attribute"),
    (ABOVE, "macro_rules! m { () => {} }", "a kind that isn't known: macro_rules"), (ABOVE, "thread_local! { static ONE: u8 = 1; }", "a kind that isn't known: thread_local"),
    (IN_BODY, "    tests::holds();", "tests is used, but is for tests alone"), (IN_BODY, "    crate::tests::holds();", "tests is used"), (IN_BODY, "    crate::law(last);", "law is used"),
    (AT_TOP, "use crate::specs::Law;\nfn x() { Law }\n", "specs is used"), (AT_TOP, "mod nowhere;", "has no file"),
    (IN_BODY, "    fn inner<T: Drop>(_: T) {}", "front would lose :"), (IN_BODY, "    #[derive(Clone, Drop)] struct Inner;", "front would lose Clone"),
    (IN_BODY, "    last.checked().unwrap();", "reviewed.txt has no reason"), (IN_BODY, '    last.checked().expect("a number");', "reviewed.txt has no reason"), (IN_BODY, "    unreachable!();", "reviewed.txt has no reason"),
    (IN_BODY, "    λ;", "no token of Rust"), (IN_BODY, "    /* block */", "doesn't read"), (IN_BODY, '    r"raw";', "doesn't read"), (IN_BODY, '    br"raw";', "doesn't read"), (IN_BODY, "    (]", "closes no bracket"),
]


@pytest.mark.parametrize("after, text, why", REFUSED)
def test_what_it_does_not_know_is_refused(small, after, text, why):
    assert LOW.count(after) == 1
    line = LOW[:LOW.index(after)].count("\n") + after.count("\n") + 2
    small.write("crates/low/src/lib.rt", LOW.replace(after, f"{after}\n{text}"))
    said = small.refused()
    assert said.startswith(f"crates/low/src/lib.rt:{line}: ") and why in said


@pytest.mark.parametrize("more, why", [
    ("fn open() {\n", "a bracket isn't closed"), ("const OPEN: u8 = 1\n", "const OPEN doesn't end"), ("ghost law: { Law }", "a ghost item doesn't end"),
    ("ghost law;\n", "ghost is left over: neither an import nor a member"), ("fn open()\n", "fn open doesn't end"), ("struct Open\n", "struct Open doesn't end"),
    ("let x = 1;\n", "an item of a kind that isn't known: let"), ("fn x(y: u8, requires { z }) {}\n", "requires is left over: it begins no clause"), ("fn x(ghost let: u8) {}\n", "ghost is left over: no item begins here"),
])
def test_items_that_do_not_end_are_refused(small, more, why):
    small.write("crates/low/src/lib.rt", LOW + more)
    assert small.refused() == f"crates/low/src/lib.rt:{LOW.count(chr(10)) + 1}: {why}"


def test_a_part_of_a_contract_that_is_written_again_is_refused(small):
    small.write("crates/low/src/lib.rt", "pub fn it(one: u8) -> u8\n    ensures { result == one }\n{\n    one\n}\n")
    source = Source(small.folder / "crates/low/src/lib.rt", "lib.rt", "low", None)
    source.cut_contracts()
    source.written[source.texts.index("result")] = "result"
    with pytest.raises(Refused, match="^lib.rt:2: a contract is left over$"):
        source.check()


def test_each_reason_is_needed_once(small):
    path = "bindings/rust/generator/reviewed.txt"
    for row, why in [
            ("unused crates/low/src/lib.rt Pair::more: x", "there is no Pair::more"), ("unwrap crates/low/src/lib.rt front: x", "there is no front"),
            ("unwrap crates/low/src/lib.rt last_byte: twice", "a row is"), ("other crates/low/src/lib.rt last: x", "a row is"), ("unwrap crates/low/src/lib.rt last", "a row is")]:
        small.write(path, f"{REVIEWED}{row}\n")
        said = small.refused()
        assert "reviewed.txt:2: " in said and why in said


# ---- what it keeps

# Each kind of token, also in what would be brackets or a comment elsewhere. All of it stays.
TOKENS = r"""
pub fn called(text: &'static str, it: Option<u32>) -> bool {
    let signs = ['{', '}', '(', '\'', '\\', '"', '\x41', '\u{1F600}', '/', b'{', b'\'', b'"', b'\\', b'\xFF'];
    let texts = ["}", "\"{", "// no comment", "\\", "'", "ghost", "requires {", &b"}\"{"[..], b"\\ '"];
    let numbers = (1.5, 0x1F, 1_000u32, 1e3, 0b1, 2..4, ..=5, 7..);
    'outer: loop { break 'outer; }
    let one = 1 + 2 - 3 * 4 / 5 % 6 ^ 7 & 8 | 9 << 1 >> 1;
    let other = text != texts[0] && signs == [] || one <= 1 && one >= 2 && !(one < 3) && one > 4;
    match it? { n @ 1..=9 => -(n as i8), _ => <u8 as Into<u32>>::into(1).map(|it| -> u8 { *it.0 }) }
}
"""
# A let with an else, and what looks like one.
LETS = """
pub fn called(it: Pair) -> Option<u8> {
    let Pair { low, high: Some(high) } = it else { return None };
    let (ref one, mut two, _, Some(Kind::Named(three))) = it.parts[0](1, [2]) else { return Some(low) };
    let None = it.more else { return one; };
    if let Some(four) = three { two = four } else { drop(high) }
    let six = if low == 1 { 2 } else { 3 };
    Some(six)
}
"""
LETS_THEN = """
pub fn called(it: Pair) -> Option<u8> {
    let (low, high) = match it { Pair { low, high: Some(high) } => (low, high), _ => { return None } };
    let (one, mut two, three) = match it.parts[0](1, [2]) { (ref one, two, _, Some(Kind::Named(three))) => (one, two, three), _ => { return Some(low) } };
    let () = match it.more { None => (), _ => { return one; } };
    if let Some(four) = three { two = four } else { drop(high) }
    let six = if low == 1 { 2 } else { 3 };
    Some(six)
}
"""
# A type with a trait, and what a call of each form reaches of them.
TOLD = "pub struct It { one: u8 } pub trait Told { fn one(&self); fn two() { Self::three() } fn three() {} fn four() {} } impl Told for It { fn one(&self) {} fn three() {} fn four() {} } "
OWN = "pub struct It<T> { one: T } impl<T> It<T> { pub fn one(&self) {} pub fn two(&'a mut self) {} pub fn new() { Self::old() } pub fn old() {} pub fn none() {} } pub type Alias = It; "
INNER = "mod inner { pub mod deep { pub fn one() { super::super::far(); super::near() } pub fn two() {} } pub fn near() {} pub fn none() {} } pub fn far() {} pub fn none() {} "
REACHED = [
    ("called(it: It) { it.one() }", TOLD, "one one"), ("called() { <It as Told>::four() }", TOLD, "four four"), ("called() { It::two() }", TOLD, "two three three"),
    ("called(it: It) { it.one; it.two::<u8>() }", OWN, "two"), ("called(it: It) { it.new() }", OWN, ""), ("called() { It::<u8>::new() }", OWN, "new old"), ("called() { Alias::none() }", OWN, "none"),
    ("called(it: It) { <It>::old() }", OWN, "old"), ("called(it: It) { <Vec<u8>>::new() }", OWN, "new old"), ("called() { inner::deep::one() }", INNER, "one near far"),
    ("called() { use crate::inner::{near as other, deep::two}; other() }", INNER, "two near"), ("called() { It::ONE }", "pub struct It; impl It { const ONE: u8 = one(); } const fn one() {} fn two() {} ", "one"),
    ("called(it: It) {}", "use std::fmt::Display; pub struct It; impl Display for It { fn shown(&self) { one() } } fn one() {} ", "shown one"),
    ("called(it: It) {}", "pub struct It; impl Drop for It { fn drop(&mut self) { one() } } fn one() {} ", "drop one"),
]


def bare(text):
    """A text without blanks and line ends, which rustfmt sets, and without the commas that it puts after the last."""
    return re.sub(r",(?=[}\])])", "", re.sub(r"\s+", "", text))


@pytest.mark.parametrize("source, wanted", [(TOKENS, TOKENS), (LETS, LETS_THEN)])
def test_tokens_stay_and_contracts_go(small, source, wanted):
    assert bare(small.given(source)) == bare("// @generated by bindings/rust/generate from crates/other/src/lib.rt, do not edit\n//! Another.\n" + wanted)


@pytest.mark.parametrize("call, rest, wanted", REACHED)
def test_what_a_function_reaches_is_written(small, call, rest, wanted):
    written = small.given(f"{rest}pub fn {call}\n")
    assert " ".join(it for it in re.findall(r"\bfn (\w+)", written) if it != "called") == wanted


def test_imports_keep_their_names_and_features(small):
    source = "use low::{front as first, last_byte as last};\n\npub fn called() {\n    first(x);\n}\n\npub fn varied() {\n    last(x);\n}\n"
    written = small.given(source, varied="varied")
    assert '\nuse crate::proved::low::front as first;\n#[cfg(feature = "variable-fonts")]\nuse crate::proved::low::last_byte as last;\n' in written


def test_members_are_held_back_by_features(small):
    source = "pub struct It;\n\nimpl It {\n    pub fn one(&self) {}\n\n    pub fn two(&self) {}\n}\n\npub fn called(x: It) {\n    x.one();\n    x.two();\n}\n"
    for kind, one in ("unused", ""), ("variable-fonts", '#[cfg(feature = "variable-fonts")] pub fn one(&self) {}'), ("program", '#[cfg(feature = "program")] pub fn one(&self) {}'):
        small.write("bindings/rust/generator/reviewed.txt", f"{REVIEWED}{kind} crates/other/src/lib.rt It::one: iterators have one\n")
        assert bare(source.replace("pub fn one(&self) {}", one)) in bare(small.given(source, varied="called"))


# ---- the committed crate, read apart from the generator


PIECE = re.compile(r'"(?:[^"\\]|\\.)*"|\'(?:[^\'\\]|\\[^u]|\\u\{\w+\}|\\x\w\w)\'|\'\w+|\w+|[<>=!]=(?!>)|[^\s\w]')
RENAMED = {"to_vec_with": "to_vec", "collect_with": "collect", "to_signed": "cast_signed", "to_unsigned": "cast_unsigned", "rattle": "std"}
# What a let with an else and a match have that the other hasn't, and what paths differ by.
SHAPES = set("( ) { } , = > _ : let match else mut crate proved core pub . .. for in".split())


def behind(found, i):
    """The place after the braces that open at one."""
    depth = 0
    while True:
        depth += (found[i] == "{") - (found[i] == "}")
        i += 1
        if depth == 0:
            return i


def pieces(text):
    """The pieces of a file without comments and, in Rattle, without contracts."""
    code = r'(?:[^"\'/]|"(?:[^"\\]|\\.)*"|\'(?:\\.[^\']*|[^\'\\])\'|\'|/(?!/))*'
    found = PIECE.findall("\n".join(re.match(code, line).group() for line in text.split("\n")))
    kept, i = [], 0
    while i < len(found):
        if found[i] in ("requires", "ensures"):
            i = behind(found, found.index("{", i))
        elif found[i] == "ghost":
            while found[i] not in (";", ",", "}"):
                i = behind(found, i) if found[i] == "{" else i + 1
            i += found[i] != "}"
        else:
            kept.append(found[i])
            i += 1
    return kept


def functions(found):
    """The functions of pieces by their names: each as what its head and its body have."""
    for i, piece in enumerate(found):
        if piece == "fn" and found[i + 1].isidentifier():
            start = next(k for k in range(i + 2, len(found)) if found[k] in "{;")
            yield found[i + 1], found[i + 2:behind(found, start) if found[start] == "{" else start]


def end_of_range(found, i, is_source):
    """The last number of a range: that of a pattern without it is one less."""
    number = int(piece, 0) if (piece := found[i].replace("_", "")).isalnum() and not re.search("[iu]", piece) else None
    is_pattern = found[i + 1:i + 3] == ["=", ">"] or found[i + 1:i + 2] in (["|"], ["if"])
    return found[i] if number is None else str(number - (is_source and is_pattern and found[i - 1] == "."))


def counted(found, is_source):
    """How often each piece is there that the rules don't write otherwise."""
    if is_source:
        text = "\t".join(found)
        text = re.sub(r"\+\tDrop\b|\bDrop\t\+|:\tDrop\b|^<\tW\t:\tfmt\t:\t:\tWrite\t>", "_", text).replace("Formatter\t<\tW\t>", "Formatter\t<\t'_\t>")
        found = text.split("\t")
    kept = Counter()
    for i, piece in enumerate(found):
        piece = RENAMED.get(piece, piece).lstrip("_") or "_"
        if piece[0].isdigit() and found[i - 1] in (".", "=") and found[i - 2] == ".":
            piece = end_of_range(found, i, is_source)
        is_counter = found[i - 1] == "for" and found[i + 1:i + 2] == ["in"]
        if not is_counter and piece not in SHAPES and piece not in CRATES:
            kept[piece] += 1
    return kept


CRATES = {path.name for path in PROVED.iterdir() if path.is_dir()}


def test_nothing_of_the_sources_is_lost():
    # (the impls that a derive of thiserror makes have no source)
    derived = r"\nimpl crate::rattle::fmt::Display for .*?\n}\n|\nimpl From<\w+> for \w+ {\n    fn from\(error: .*?\n}\n"
    count = 0
    for path in sorted(PROVED.rglob("*.rs")):
        text = path.read_text(encoding="utf-8")
        source = re.match(r"// @generated by bindings/rust/generate from (\S+), do not edit\n", text)[1]
        known = {}
        for name, one in functions(pieces((REPOSITORY / source).read_text(encoding="utf-8"))) if source != "crates" else ():
            known.setdefault(name, []).append(counted(one, True))
        for name, one in functions(pieces(re.sub(derived, "\n", text, flags=re.S))):
            lost = [it - counted(one, False) for it in known[name]]
            assert Counter() in lost, f"{path}: {name}: {lost}"
            count += 1
    assert count > 1000
