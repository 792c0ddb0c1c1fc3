"""What the comparisons run, and how it is built: the program, the C library and its calls, and the drivers."""
import ctypes
import glob
import importlib.util
import os
import shutil
import subprocess
import sys

import fonts

# The folder compare/, its C drivers, and what is built of them.
HERE = os.path.dirname(os.path.dirname(os.path.realpath(__file__)))
ROOT = os.path.dirname(HERE)
DRIVERS, BUILD = os.path.join(HERE, "drivers"), os.path.join(HERE, "build")
CARGO = os.path.join(BUILD, "cargo")
NAME = os.path.basename(sys.argv[0])
# With CANARY in the environment a comparison changes one answer, and has to end with status 1.
CANARY = "CANARY" in os.environ
PROVED = os.path.join(ROOT, "bindings", "c", "out", "libsubsetter.so")


class Canary:
    """Changes the first answer that it is given."""

    def __init__(self):
        self.is_due = CANARY

    def changed(self, data):
        """The bytes of a font, or under CANARY the first ones with a bit of the outlines changed."""
        record = max(data.find(b"glyf"), data.find(b"CFF ")) if self.is_due else -1
        if record < 0:
            return data
        at, size = (int.from_bytes(data[record + k:record + k + 4], "big") for k in (8, 12))
        self.is_due, data = False, bytearray(data)
        data[at + size // 2] ^= 1
        return bytes(data)


def cargo(manifest, *words, target=CARGO, **more):
    """Builds by Cargo, without the network."""
    env = dict(os.environ, **more)
    command = ["cargo", "build", "--offline", "--quiet", "--manifest-path", os.path.join(ROOT, manifest, "Cargo.toml"), "--target-dir", target]
    subprocess.run([*command, *words], env=env, check=True)
    return target


def program():
    """The program: SUBSET_FONT, or as Cargo builds it."""
    if "SUBSET_FONT" in os.environ:
        return named("SUBSET_FONT")
    return os.path.join(cargo("bindings/rust", "--release", "--features", "program", target=os.path.join(ROOT, "out", "cargo")), "release", "subset_font")


def library():
    """The C library: LIBRARY, or as Cargo builds it."""
    if "LIBRARY" in os.environ:
        return named("LIBRARY")
    return os.path.join(cargo("bindings/capi", "--release"), "release", "libsubsetter.so")


def checked_library():
    """The C library as Cargo builds it, where a sum that wraps is a panic."""
    checks = {"OVERFLOW_CHECKS": "true", "DEBUG_ASSERTIONS": "true", "LTO": "off", "CODEGEN_UNITS": "16"}
    profile = {f"CARGO_PROFILE_RELEASE_{key}": value for key, value in checks.items()}
    return os.path.join(cargo("bindings/capi", "--release", target=os.path.join(BUILD, "checked"), **profile), "release", "libsubsetter.so")


def named(variable):
    """A file that the environment names; the script ends where it isn't there."""
    path = os.path.realpath(os.environ.get(variable, "nothing"))
    if not os.path.exists(path):
        sys.exit(f"{NAME}: no {variable} {path} (compare/README.md)")
    return path


MANIFEST = """[package]
name = "%s"
version = "%s"
edition = "2021"

[dependencies]
%s
[features]
default = ["std"]
std = []
variable-fonts = []

[workspace]
"""


def package(name, version, needs, source):
    """Lays out a Rust package whose manifest names no registry: its folder in build/."""
    folder = os.path.join(BUILD, name)
    os.makedirs(os.path.join(folder, "src"), exist_ok=True)
    if os.path.isfile(source):
        shutil.copy(source, os.path.join(folder, "src", "main.rs"))
    else:
        shutil.copytree(source, os.path.join(folder, "src"), dirs_exist_ok=True)
    fonts.put(os.path.join(folder, "Cargo.toml"), MANIFEST % (name, version, "".join(f'{it} = {{ path = "{path}" }}\n' for it, path in needs.items())))
    return folder


def driver(name, source="bench", *words):
    """drivers/bench.rs, or another, over the generated crate, or over the Rust crate (`original`: ORIGINAL)."""
    crate = os.path.join(ROOT, "bindings", "rust")
    if name == "original":
        found = sorted(glob.glob("/usr/share/cargo/registry/rustc-hash-*"))
        if not found:
            sys.exit(f"{NAME}: no rustc-hash: apt-get install librust-rustc-hash-dev")
        rustc_hash = package("rustc-hash", found[-1].rpartition("-")[2], {}, os.path.join(found[-1], "src"))
        crate = package("subsetter", "0.2.6", {"rustc-hash": rustc_hash}, os.path.join(named("ORIGINAL"), "src"))
    package(f"{name}_{source}", "0.1.0", {"subsetter": crate}, os.path.join(DRIVERS, f"{source}.rs"))
    return os.path.join(cargo(f"compare/build/{name}_{source}", "--release", *words, RUSTFLAGS="-C target-cpu=x86-64-v2"), "release", f"{name}_{source}")


def gcc(source, *more, to):
    """The path of what gcc makes of a C file of drivers/."""
    os.makedirs(BUILD, exist_ok=True)
    path = os.path.join(BUILD, to)
    subprocess.run(["gcc", "-O3", "-march=x86-64-v2", "-o", path, os.path.join(DRIVERS, source), *more], check=True)
    return path


def wasm():
    """The WebAssembly module: WASM, or as `make -C bindings/js` builds it."""
    if "WASM" in os.environ:
        return named("WASM")
    folder = os.path.join(ROOT, "bindings", "js")
    subprocess.run(["make", "-s", "-C", folder], check=True)
    return os.path.join(folder, "out", "subsetter.wasm")


# ---- the calls

class Calls:
    """The Python module over a C library: the one of a path, LIBRARY, or as Cargo builds it."""

    def __init__(self, path=None):
        place = os.path.join(ROOT, "bindings", "python", "subsetter", "__init__.py")
        spec = importlib.util.spec_from_file_location(f"subsetter_{id(self)}", place)
        self.module, self.canary = importlib.util.module_from_spec(spec), Canary()
        spec.loader.exec_module(self.module)
        self.module._loaded = self.module._declare(ctypes.CDLL(path or library()))

    def answer(self, call, *words, **more):
        """What a call returns, or the name of its error; of a panic `RuntimeError`."""
        try:
            return getattr(self.module, call)(*words, **more)
        except (self.module.Error, RuntimeError) as error:
            return type(error).__name__

    def subset(self, data, glyphs, place=(), index=0):
        """The new font, or the name of the error. `place` has pairs of a tag and a value in 65536ths; none is the font as it is."""
        more = {"coordinates": {tag: value / 65536 for tag, value in place}} if place else {}
        font = self.answer("subset", data, glyphs, index, **more)
        return font if isinstance(font, str) else self.canary.changed(font)
