"""The tokens of a Rattle or Rust file, and which of them are contracts."""
import re

TOKEN = re.compile(
    r"""(?P<space>\s+)
      | (?P<inner>//![^\n]*) | (?P<doc>///(?!/)[^\n]*) | (?P<comment>//[^\n]*) | (?P<block>/\*)
      | (?P<raw>b?r\#*")
      | (?P<text>b?"(?:[^"\\]|\\.)*")
      | (?P<char>b?'(?:[^'\\]|\\(?:x[0-9a-fA-F]{2}|u\{[0-9a-fA-F]+\}|.))')
      | (?P<life>'[A-Za-z_]\w*)
      | (?P<number>[0-9](?:[\w]|\.(?=[0-9]))*)
      | (?P<word>[A-Za-z_]\w*)
      | (?P<sign>::|->|=>|\.\.=|\.\.|&&|\|\||==|!=|<=|>=|[-+*/%^!&|<>=@.,;:\#$?~\[\](){}])
      | (?P<other>.)""",
    re.X | re.S,
)
COMMENTS = ("inner", "doc", "comment")
OPENING = {"{": "}", "(": ")", "[": "]"}
CLOSING = set(OPENING.values())
# Attributes that are read by the prover alone.
PROVER = ("tactic", "cycle")
# What can come before a ghost item: the end of another one, a bracket that opens, an attribute, or its visibility.
BEFORE_ITEM = {"", ";", "{", "}", ",", "]", ")", "pub"}


class Refused(Exception):
    """What can't be written, with its file and line."""


class Tokens:
    """The tokens of a file. `gone` says of each what contract it belongs to, if it does."""

    def __init__(self, name, source):
        self.name, self.source = name, source
        self.kinds, self.texts, self.starts = [], [], []
        for found in TOKEN.finditer(source):
            self.kinds.append(found.lastgroup)
            self.texts.append(found.group())
            self.starts.append(found.start())
        self.gone = [None] * len(self.texts)
        self.partner = {}
        for i, kind in enumerate(self.kinds):
            if kind in ("block", "raw"):
                self.fail(i, f"{self.texts[i]} begins what the generator doesn't read")
        self.pair_brackets()
        self.find_contracts()
        for i, kind in enumerate(self.kinds):
            if kind == "other" and not self.gone[i]:
                self.fail(i, f"no token of Rust: {self.texts[i]!r}")

    def fail(self, i, why):
        """Ends with the line of a token."""
        at = self.starts[i] if i < len(self.starts) else len(self.source)
        raise Refused(f"{self.name}:{self.source.count(chr(10), 0, at) + 1}: {why}")

    def pair_brackets(self):
        opened = []
        for i, text in enumerate(self.texts):
            if self.kinds[i] != "sign":
                continue
            if text in OPENING:
                opened.append(i)
            elif text in CLOSING:
                if not opened or OPENING[self.texts[opened[-1]]] != text:
                    self.fail(i, f"{text} closes no bracket")
                self.partner[opened[-1]], self.partner[i] = i, opened[-1]
                opened.pop()
        if opened:
            self.fail(opened[-1], "a bracket isn't closed")

    # Walking over the tokens of code.

    def is_code(self, i):
        """Whether a token is neither space, comment nor contract."""
        return self.kinds[i] not in ("space",) + COMMENTS and not self.gone[i]

    def next(self, i, step=1):
        """The next token of code; the number of tokens, or -1, where there is none."""
        i += step
        while 0 <= i < len(self.texts) and not self.is_code(i):
            i += step
        return i

    def before(self, i):
        """The token of code before one."""
        return self.next(i, -1)

    def text(self, i):
        """The text of a token, empty past the ends."""
        return self.texts[i] if 0 <= i < len(self.texts) else ""

    def close(self, i):
        """The token that closes the bracket at a token, or the token itself."""
        return max(i, self.partner.get(i, i))

    def find(self, i, *wanted):
        """The first token from one on, outside of brackets, that is one of the wanted; None where the group ends before."""
        while i < len(self.texts):
            if self.text(i) in wanted and self.kinds[i] != "text":
                return i
            if self.kinds[i] == "sign" and self.text(i) in CLOSING:
                return None
            i = self.next(self.close(i))
        return None

    def code(self, first, last):
        """The tokens of code from one to another."""
        return (i for i in range(first, last + 1) if self.is_code(i))

    # Contracts: what is for the prover alone.

    def find_contracts(self):
        i = self.next(-1)
        while i < len(self.texts):
            end = self.contract(i)
            i = self.next(i) if end is None else self.next(end)

    def contract(self, i):
        """Marks the contract that begins at a token, and returns its last token; None where there is none."""
        text, after = self.text(i), self.text(self.next(i))
        if self.kinds[i] == "word" and text == "ghost":
            return self.ghost(i)
        if self.kinds[i] == "word" and text in ("requires", "ensures"):
            return self.clause(i)
        if text == "#":
            bracket = self.next(i)
            bracket = self.next(bracket) if self.text(bracket) == "!" else bracket
            if self.text(bracket) == "[" and self.text(self.next(bracket)) in PROVER:
                return self.mark(i, self.close(bracket), "tactic")
        if after == "!" and text.startswith("prove"):
            self.fail(i, f"{text}! is left over")
        return None

    def mark(self, first, last, kind):
        for i in range(first, last + 1):
            self.gone[i] = kind
        return last

    def ghost(self, i):
        """ghost use ..;  ghost NAME = ..;  ghost NAME: ..,  with their visibility."""
        first, before = i, self.before(i)
        if self.text(before) == ")" and self.text(self.before(self.partner[before])) == "pub":
            first = self.before(self.partner[before])
        elif self.text(before) == "pub":
            first = before
        if self.text(self.before(first)) not in BEFORE_ITEM:
            self.fail(i, "ghost is left over: no item begins here")
        name = self.next(i)
        after = self.text(self.next(name))
        if self.kinds[name] != "word" or (self.text(name) != "use" and after not in (":", "=")):
            self.fail(i, "ghost is left over: neither an import nor a member")
        end = name
        while self.text(end) not in (";", ",") or self.kinds[end] != "sign":
            inside = self.next(self.close(end))
            if self.text(inside) in CLOSING and self.kinds[inside] == "sign":
                break
            if inside >= len(self.texts):
                self.fail(i, "a ghost item doesn't end")
            end = inside
        return self.mark(first, self.close(end), "ghost")

    def clause(self, i):
        """requires {..}  ensures* NAME {..}"""
        at = self.next(i)
        if self.text(at) == "*":
            at = self.next(at)
        if self.kinds[at] == "word" if at < len(self.kinds) else False:
            at = self.next(at)
        if self.text(at) != "{" or self.text(self.before(i)) in ("", ";", "{", ",", "."):
            self.fail(i, f"{self.text(i)} is left over: it begins no clause")
        return self.mark(i, self.close(at), "clause")
