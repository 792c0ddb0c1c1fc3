"""Completions of `subset_font` in bash, zsh and fish: options, and files of options that take one.

    /usr/bin/python3 -m pytest -q tests/test_completion.py
"""
import os
import pty
import select
import signal
import subprocess
import time

import pytest
from support import ROOT

FOLDER = ROOT / "crates" / "subset_font" / "completions"
# What is typed, of which the last word is completed, and what is offered.
OF_OPTIONS = {"--no-": ["--no-glyph-names", "--no-hinting", "--no-names"], "--gids": ["--gids", "--gids-file"], "--ver": ["--verbose", "--version", "--vertical"],
              "in.ttf --pd": ["--pdf"], "--widths --js": ["--json"], "in.ttf --face": ["--face-index"], "--vertical --out": ["--output-file"], "oth": ["other.otf"], "--json li": ["list.txt"]}
OF_FILES = {f"{it} oth": ["other.otf"] for it in "-o --output-file --pdf --batch --gids-file --text-file --unicodes-file --axes --info --vertical --no-hinting --no-names --no-glyph-names --small --widths --verbose --json --quiet".split()}
OF_VALUES = {f"{it} oth": [] for it in "--text --at --limits --most-input --face-index --codes --rights --gids --unicodes".split()}
TRIES = {**OF_OPTIONS, **OF_FILES, **OF_VALUES}
# In zsh an option isn't offered again, by its other name neither.
OF_ZSH = {"-o other.otf --output": [], "-h --he": [], "--json --js": [], "--gids 1 --gids": ["--gids-file"]}


@pytest.fixture
def room(tmp_path):
    for name in ("list.txt", "one font.ttf", "other.otf"):
        (tmp_path / name).write_bytes(b"")
    (tmp_path / "folder").mkdir()
    return tmp_path


def test_generated():
    """The files are what completions/generate makes of the help."""
    assert subprocess.run([FOLDER / "generate", "--check"], check=False).returncode == 0


def test_bash(room):
    found = {}
    for line in TRIES:
        words = " ".join(f"'{it}'" for it in ["subset_font", *line.split(" ")])
        script = f"source '{FOLDER}/subset_font.bash'; COMP_WORDS=({words}); COMP_CWORD={len(line.split(' '))}; _subset_font; printf '%s\\0' \"${{COMPREPLY[@]}}\""
        found[line] = sorted(it for it in subprocess.run(["bash", "--norc", "-c", script], cwd=room, stdout=subprocess.PIPE, text=True, check=True).stdout.split("\0") if it)
    assert found == TRIES


def test_fish(room):
    env, found = {**os.environ, "HOME": str(room), "XDG_CONFIG_HOME": f"{room}/.config", "XDG_DATA_HOME": f"{room}/.data"}, {}
    for line in TRIES:
        said = subprocess.run(["fish", "--no-config", "-c", f"source '{FOLDER}/subset_font.fish'; complete -C 'subset_font {line}'"], cwd=room, env=env, stdout=subprocess.PIPE, text=True, check=True).stdout
        found[line] = sorted(it.split("\t")[0] for it in said.splitlines() if it)
    assert found == TRIES


class Shell:
    """A shell in a terminal of its own."""

    def __init__(self, room, words, **env):
        self.process, self.handle = pty.fork()
        if self.process == 0:
            os.chdir(room)
            os.execvpe(words[0], words, {**os.environ, "TERM": "dumb", "HOME": str(room), **env})

    def type(self, text, wanted, seconds=120):
        """Types a text; what the terminal shows until `wanted` comes, which is a text or a function."""
        os.write(self.handle, text.encode())
        shown, end = "", time.monotonic() + seconds
        while not (wanted() if callable(wanted) else wanted in shown) and time.monotonic() < end:
            if select.select([self.handle], [], [], 0.05)[0]:
                shown += os.read(self.handle, 65536).decode(errors="replace")
        return shown

    def end(self):
        os.kill(self.process, signal.SIGKILL)
        os.waitpid(self.process, 0)
        os.close(self.handle)


def test_bash_in_a_terminal(room):
    """A file's name with a blank is completed as one word, with a blank after it, and a folder's name with a stroke."""
    shell = Shell(room, ["bash", "--norc", "--noprofile", "-i"], HISTFILE="", PS1="next: ", INPUTRC="/dev/null")
    shell.type(f"source '{FOLDER}/subset_font.bash'; echo rea''dy\n", "ready\r\nnext: ")
    # (what is typed after the key shows that the completion is over, whatever it did)
    shown = shell.type("subset_font --json one\t=1= ", "=1= ") + shell.type("--gids-file fol\t=2=", "=2=")
    shell.end()
    assert "one\\ font.ttf =1= " in shown and "folder/=2=" in shown


# Each match that a completion adds is written to a file, in place of being shown.
WIDGET = r"""
PROMPT=; unsetopt zle_bracketed_paste 2>/dev/null; fpath=(FOLDER $fpath); autoload -Uz compinit && compinit -u -D
compadd() { local -a hits; builtin compadd -O hits "$@"; print -rl -- $hits >> .found; builtin compadd "$@" }
noted() { zle complete-word; print over > .over }; zle -N noted; bindkey '^T' noted; print rea''dy
"""


def test_zsh(room):
    shell, found = Shell(room, ["zsh", "-f", "-i"]), {}
    shell.type(WIDGET.replace("FOLDER", str(FOLDER)), "ready")
    for line in TRIES | OF_ZSH:
        for it in (room / ".found", room / ".over"):
            it.unlink(missing_ok=True)
        # (^U takes away what the try before left)
        shell.type(f"\x15subset_font {line}\x14", (room / ".over").exists)
        hits = (room / ".found").read_text().split("\n") if (room / ".found").exists() else []
        found[line] = sorted({it for it in hits if it})
    shell.end()
    assert found == TRIES | OF_ZSH
