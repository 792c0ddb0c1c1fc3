"""The C library as Cargo makes it of the crate (bindings/capi), for targets that the kit doesn't compile for.

The compilers are Debian's, which `tests/platforms/targets` unpacks into a folder: out/targets, or the one that TARGETS names.
"""
import os
import re
import shutil

from kit import ROOT, Failed, run, text_of, write

TARGETS = ["windows", "s390x"]
# What is linked in beside the crate, by a part of a package's name, with the versions that tests/platforms/targets has of Debian.
RUST = {"rust": "1.63.0"}
LINKED = {"s390x": RUST, ".tgz": RUST, **dict.fromkeys(["windows", "win_amd64"], {**RUST, "mingw": "10.0.0", "gcc": "12.2.0"})}
# A DLL has no date in its head.
FLAGS = {"windows": " -C link-arg=-Wl,--no-insert-timestamp"}


def copied(room):
    """The packages and bindings/c in a folder of their own, with the workspace's root above them: what Cargo puts into the
    names of symbols is then the same wherever the folder is."""
    bindings = os.path.join(room, "sources", "bindings")
    for name in ("c", "capi", "rust"):
        kept = shutil.ignore_patterns("target", "out", "tests", "__pycache__")
        shutil.copytree(os.path.join(ROOT, "bindings", name), os.path.join(bindings, name), ignore=kept)
    for name in ("VERSION", "LICENSE", "LICENSE-SPDX", "NOTICE"):
        shutil.copy(os.path.join(ROOT, name), os.path.join(room, "sources"))
    manifest = text_of(bindings, "capi", "Cargo.toml")
    profile = re.search(r"^\[profile\.release\]\n(?:[a-z-]+ = .*\n)+", manifest, re.M)
    if not profile or manifest.count("\n[workspace]\n") != 1:
        raise Failed("bindings/capi/Cargo.toml has no profile or no workspace")
    write(manifest.replace(profile[0], "").replace("\n[workspace]\n", "\n").encode(), bindings, "capi", "Cargo.toml")
    write(f'[workspace]\nmembers = ["capi"]\nexclude = ["rust"]\n\n{profile[0]}'.encode(), bindings, "Cargo.toml")
    os.rename(os.path.join(bindings, "capi", "Cargo.lock"), os.path.join(bindings, "Cargo.lock"))
    return os.path.join(room, "sources")


class Target:
    """The tools of a target, the sources, and what Cargo made of them."""

    def __init__(self, name, room):
        folder = os.path.abspath(os.environ.get("TARGETS") or os.path.join(ROOT, "out", "targets"))
        run([os.path.join(ROOT, "tests", "platforms", "targets"), folder, name])
        self.name, self.tools, self.room = name, os.path.join(folder, name), os.path.join(room, f"cargo-{name}")
        self.sources = copied(self.room)
        self.built = os.path.join(self.room, "target", text_of(self.tools, "triple").strip(), "release")
        # (no path of this machine is in the library)
        flags = f"--remap-path-prefix={self.sources}=.{FLAGS.get(name, '')}"
        self.env = {**os.environ, "RUSTFLAGS": flags, "CARGO_TARGET_DIR": os.path.join(self.room, "target")}

    def tool(self, name):
        return os.path.join(self.tools, name)

    def make(self, *words):
        """`make` in bindings/c, over the library of Cargo."""
        tools = [f"{variable}={self.tool(it)}" for variable, it in (("CARGO", "cargo"), ("CC", "cc"), ("LD", "ld"), ("AR", "ar"), ("OBJCOPY", "objcopy"))]
        place = [f"OUT={self.room}/c", f"CARGO_FOLDER={self.room}/target", f"CARGO_BUILT={self.built}"]
        run(["make", "-s", "-C", os.path.join(self.sources, "bindings", "c"), "BY_CARGO=1", *place, *tools, *words], env=self.env)

    def cargo(self):
        """Both libraries as Cargo gives them."""
        manifest = os.path.join(self.sources, "bindings", "capi", "Cargo.toml")
        run([self.tool("cargo"), "build", "--release", "--offline", "--locked", "--manifest-path", manifest], env=self.env)


def linux(name, room, to):
    """Leaves in a folder what `make install` in bindings/c installs for a target of Linux."""
    target = Target(name, room)
    target.make("all")
    target.make("install", "prefix=/placeholder", f"DESTDIR={target.room}/i", "PROGRAM=none")
    shutil.copytree(f"{target.room}/i/placeholder", to, symlinks=True)


def windows(room, to):
    """Leaves in a folder what a package for Windows has of Cargo's files; the static library without what a debugger reads."""
    target = Target("windows", room)
    target.cargo()
    static = os.path.join(target.built, "libsubsetter.a")
    run([target.tool("objcopy"), "--strip-debug", "--enable-deterministic-archives", static])
    for path, name in (("bin/subsetter.dll", "subsetter.dll"), ("lib/libsubsetter.dll.a", "libsubsetter.dll.a"), ("lib/libsubsetter.a", "libsubsetter.a")):
        os.makedirs(os.path.dirname(os.path.join(to, path)), exist_ok=True)
        shutil.copyfile(os.path.join(target.built, name), os.path.join(to, path))
