"""The lines of a readable file: words, what is indented below them, and where they are."""
import os
import re

WORD = re.compile(r'(?:[^\s"]|"[^"]*")+')
INDENT = 4


class Trouble(Exception):
    """What is wrong with a file, and where."""


class Line:
    """A line's words, and the lines below it that are indented further."""

    def __init__(self, words, where):
        self.words, self.where, self.children = words, where, []

    def fails(self, what):
        raise Trouble(f"{self.where}: {what}")

    def same(self, other):
        """Whether the words are the same, and those below."""
        return self.words == other.words and len(self.children) == len(other.children) and all(
            left.same(right) for left, right in zip(self.children, other.children))

    def keys(self, words=None):
        """The words KEY=VALUE, and those without a key."""
        pairs, others = {}, []
        for word in self.words[1:] if words is None else words:
            key, sign, value = word.partition("=")
            if not sign or not re.fullmatch(r"\w+", key):
                others.append(word)
            elif key in pairs:
                self.fails(f"{key} is given twice")
            else:
                pairs[key] = value
        return pairs, others


def words_of(text, where):
    """The words in front of a comment, which begins with a `#` of its own."""
    words = []
    for found in WORD.finditer(text):
        if found[0].startswith("#"):
            break
        words.append(found[0])
    if text.partition("#")[0].count('"') % 2:
        raise Trouble(f"{where}: a quotation mark is alone")
    return words


def put(stack, text, where):
    """Puts an indented line below the last one that is indented less."""
    depth, rest = divmod(len(text) - len(text.lstrip(" ")), INDENT)
    if rest or "\t" in text:
        raise Trouble(f"{where}: a line is indented by multiples of {INDENT} blanks")
    words = words_of(text, where)
    if not words:
        return
    if depth > len(stack):
        raise Trouble(f"{where}: the line is indented too far")
    line = Line(words, where)
    del stack[depth:]
    stack[-1].children.append(line)
    stack.append(line)


def joined(texts, shown):
    """Lines, each with where it begins; a line that ends with ` \\` goes on in the next one."""
    begun = None
    for number, text in enumerate(texts, 1):
        where, text = (f"{shown}:{number}", text) if begun is None else (begun[0], f"{begun[1]} {text.strip()}")
        begun = (where, text[:-2]) if text.endswith(" \\") else None
        if begun is None:
            yield where, text
    if begun:
        raise Trouble(f"{begun[0]}: the line goes on behind the file's end")


def parsed(texts, shown):
    """The entries of lines: a text that is copied (an empty line, or a comment at the margin), or a line with what is below it."""
    entries, stack = [], []
    for where, text in joined(texts, shown):
        if not text or text.startswith("#"):
            entries.append(text)
            stack = []
        elif not text.startswith(" "):
            stack = [Line(words_of(text, where), where)]
            entries.append(stack[0])
        elif stack:
            put(stack, text, where)
        elif words_of(text, where):
            raise Trouble(f"{where}: an indented line belongs to no entry")
    return entries


def read(path, shown):
    """The entries of a file."""
    try:
        with open(path, encoding="ascii") as file:
            texts = file.read().split("\n")
    except UnicodeDecodeError as error:
        raise Trouble(f"{shown}: byte {error.start} isn't ASCII") from None
    if texts.pop():
        raise Trouble(f"{shown}: its last line isn't ended")
    return parsed(texts, shown)


def read_all(folder, shown):
    """The entries of all files `*.txt` of a folder, in the order of their names."""
    found = []
    for name in sorted(it for it in os.listdir(folder) if it.endswith(".txt")):
        found += read(os.path.join(folder, name), f"{shown}/{name}")
    if not found:
        raise Trouble(f"{shown}: there is no file")
    return found
