"""What is asked of the kit: the proved libraries and the program for a target, and the lines that say what is proved."""
import os
import re
import subprocess
import sys

ROOT = os.path.dirname(os.path.dirname(os.path.realpath(__file__)))
sys.path.insert(1, os.path.join(ROOT, "tools"))
import keep

# The processor that each target is built for: the first of the kit's list, which every processor of the target runs.
TARGETS = {
    "x86_64": ("x86_64-unknown-linux-gnu", "x86-64"),
    "aarch64": ("aarch64-unknown-linux-gnu", "generic"),
}


def read(*path):
    with open(os.path.join(*path), "rb") as file:
        return file.read()


def text_of(*path):
    return read(*path).decode()


def write(data, *path):
    with open(os.path.join(*path), "wb") as file:
        file.write(data)


class Failed(Exception):
    """Why there are no packages, in words."""


def run(words, cwd=ROOT, env=None):
    """What a command prints, on either stream. A command that fails ends all."""
    ran = subprocess.run(words, cwd=cwd, env=env, stdout=subprocess.PIPE, stderr=subprocess.STDOUT, text=True, errors="replace")
    if ran.returncode != 0:
        raise Failed(f"{' '.join(words)[:300]}\n  ended with {ran.returncode}:\n{ran.stdout[-3000:]}")
    return ran.stdout


class Kit:
    def __init__(self):
        self.rt = keep.kit()
        self.folder, self.line = self.rt.KIT, run(["rt", "version"]).strip()
        self.crates = {it.name: it for it in self.rt.crates_below(ROOT)}

    def below(self, *tops):
        """The repository's libraries below some crates, each after those that it names."""
        return list(dict.fromkeys(it.name for top in tops for it in self.crates[top].below()))

    def check(self, name):
        """The last line of a check of a crate, which proves whatever isn't proved yet."""
        said = [it for it in run(["rt", "check"], self.crates[name].folder).split("\n") if it.startswith("logic=")]
        if not said or not said[-1].startswith("logic=proved "):
            raise Failed(f"{name} isn't proved")
        return said[-1]

    def compile(self, name, target, to):
        """Compiles a crate for every processor of a target, over libraries that are proved, and returns the last line of that: it proves what isn't kept."""
        crate, (triple, cpu) = self.crates[name], TARGETS[target]
        if not all(it.is_built() for it in crate.below()):
            self.check(name)
        words = crate.words(["--jobs", "2", "--target", triple, "--cpu", cpu]) + self.rt.KEPT
        said = run([self.rt.RATTLE, "build", *words, "--toolchain", f"{self.folder}/toolchain", "--backend", "llvm", "-o", to], crate.folder)
        said = re.findall(r"^logic=proved .*$", said, re.M)
        if not said or f" target={triple} " not in said[-1] or " cpu=" in said[-1]:
            raise Failed(f"{name} isn't proved for each processor of {triple}: {said}")
        return said[-1]

    def link(self, compiled, program):
        """Links a program for x86-64, the one target for which the kit has all of its C files."""
        run([f"{self.folder}/bin/rattle-link", "--target", TARGETS["x86_64"][0], "--toolchain", f"{self.folder}/toolchain",
             "-o", program, compiled, f"{self.folder}/c/libos_c.a", f"{self.folder}/c/liblibc_c.a"])


def say(text):
    print(f"release: {text}", file=sys.stderr, flush=True)
