"""What is written for the tokens of a file."""
import re

from .items import FEATURES, behind_generics, items
from .comments import plain
from .tokens import CLOSING, COMMENTS, OPENING, Tokens

ROOT = "crate::proved"
SHIM = "crate::rattle"
# Methods whose names Rust's own types have, with other parameters or since a later version.
RENAMED = {
    "to_vec": "to_vec_with",
    "collect": "collect_with",
    "cast_signed": "to_signed",
    "cast_unsigned": "to_unsigned",
}
# What a module needs the stand-in's prelude for.
PRELUDE = {"Vec", "String"}
TRAITS = {
    "Cast": {"to_signed", "to_unsigned"},
    "SliceExt": {"to_vec_with"},
    "IteratorExt": {"collect_with"},
}
HOST = {"HostRuntime", "AllocGlobal", "Print", "Eprint", "Input"}
# A link of a comment: all that it shows, and the last name of its path.
LINK = re.compile(r"\[(`(?:\w+::)*(\w+)`)\](?![(\[])")
# Macros and attributes that mean in Rust what they do in Rattle, or that the stand-in has.
MACROS = {"eprintln", "format", "matches", "unreachable", "vec", "write", "writeln"}
ATTRIBUTES = {"derive", "inline", "must_use", "repr"}
# Words of Rattle that no code has.
LEFT_OVER = {"ghost", "requires", "ensures", "Model", "tactic", "also_owns", "thiserror", "cfg", "cfg_attr"}
# What is written for a token that goes. A line of nothing else goes with it.
CUT = "\0"


class Source(Tokens):
    """A file of a crate, its items, and for each token what is written for it."""

    is_plain = False

    def __init__(self, path, name, crate, crates):
        super().__init__(name, path.read_text(encoding="utf-8"))
        self.path, self.crate, self.crates = path, crate, crates
        self.written, self.moved = list(self.texts), set()
        self.items = items(self, self, 0, len(self.texts) - 1, None)

    # Cutting.

    def cut(self, first, last):
        for i in range(first, last + 1):
            self.written[i] = CUT

    def head(self, first):
        """The token at which the comments and contracts above an item begin, up to an empty line."""
        i = first - 1
        while i >= 0:
            if self.kinds[i] == "space" and self.texts[i].count("\n") < 2 or self.kinds[i] == "doc" or self.gone[i]:
                i -= 1
            elif self.kinds[i] == "comment" and self.kinds[i - 1] == "space" and "\n" in self.texts[i - 1]:
                i -= 1
            else:
                break
        while self.kinds[i + 1] == "space":
            i += 1
        return i + 1

    def cut_item(self, first, last):
        """Cuts an item with what is above it."""
        start = self.head(first)
        self.cut(start, last)
        if self.text(last + 1).count("\n") > 1 and self.text(start - 1).count("\n") > 1:
            self.written[start - 1] = "\n"

    # The rules.

    def strip(self, module, reviewed, absent):
        """Writes the items of a module that are reached. `absent` are the names of those that aren't."""
        self.reviewed, self.absent = reviewed, absent
        self.cut_contracts()
        self.level = module.level
        self.write_items(self.items, module.level)
        for i, text in enumerate(self.texts):
            if self.written[i] == CUT or self.gone[i]:
                continue
            if text == ".." and self.kinds[self.before(i)] == "number":
                self.inclusive(i)
            if self.kinds[i] == "word":
                self.word(i, text)
        for i, text in enumerate(self.texts):
            if text == "let" and self.written[i] == "let" and self.text(self.before(i)) not in ("if", "while", "&&"):
                self.plain_let(i)

    def word(self, i, text):
        before = self.text(self.before(i))
        if text == "derive":
            self.derive(i)
        elif text == "fmt" and before == "fn":
            self.plain_fmt(i)
        elif text == "main" and before == "fn" and self.text(self.before(self.before(i))) != "pub":
            self.written[self.before(i)] = "pub fn"
        elif text == "Drop" and before in (":", "+"):
            self.drop_bound(i)
        if text in RENAMED and before == ".":
            self.written[i] = RENAMED[text]
        self.place(i)

    def cut_contracts(self):
        for i, kind in enumerate(self.gone):
            if kind is None or (i and self.gone[i - 1]):
                continue
            last = i
            while last + 1 < len(self.gone) and self.gone[last + 1]:
                last += 1
            if kind == "ghost":
                self.cut_item(i, last)
            else:
                self.cut(i, last)
            before = i - 1
            while kind == "clause" and (self.kinds[before] in ("space", "comment") or self.gone[before]):
                if self.kinds[before] == "comment":
                    self.cut(before, before)
                before -= 1

    def write_items(self, all_items, level):
        for item in all_items:
            if self.is_dropped(item):
                self.cut_item(item.first, item.last)
                continue
            if item.kind == "use":
                self.write_use(item, level)
                continue
            if item.level > level:
                self.written[item.first] = f'#[cfg(feature = "{FEATURES[item.level]}")]\n' + self.written[item.first]
            if item.kind == "fn":
                self.unused_parameters(item)
                self.unused_counts(item)
                self.reasons(item)
            elif item.kind in ("struct", "enum") and item.body:
                self.unread(item)
            elif item.kind == "impl" and item.trait and item.trait[-1] == "Drop":
                self.drop_impl(item)
            self.write_items(item.children, item.level)

    def is_dropped(self, item):
        if item.kind == "use":
            return all(name.level is None for name in item.names)
        return item.is_test or item.level is None

    def write_use(self, item, level):
        """The names of an import that are reached, each with its feature."""
        if all(name.level == level for name in item.names):
            return
        lines = []
        public = "pub " if item.is_public else ""
        if self.text(self.next(item.first)) == "(":
            public = "pub(crate) "
        for wanted in sorted({name.level for name in item.names if name.level is not None}):
            gate = f'#[cfg(feature = "{FEATURES[wanted]}")]\n' if wanted > level else ""
            groups = {}
            for name in item.names:
                if name.level == wanted:
                    prefix, last = "::".join(name.path[:-1]), name.path[-1]
                    renamed = f" as {name.name}" if name.name != last else ""
                    groups.setdefault(prefix, []).append(last + renamed)
            for prefix, names in groups.items():
                path = self.rooted(prefix) + "::" if prefix else ""
                inner = names[0] if len(names) == 1 else "{" + ", ".join(names) + "}"
                lines.append(f"{gate}{public}use {path}{inner};")
        self.cut(item.first, item.last)
        self.written[item.first] = "\n".join(lines)

    def rooted(self, prefix):
        head, sign, rest = prefix.partition("::")
        if head == "crate":
            return f"{ROOT}::{self.crate}{sign}{rest}"
        if head == "std":
            return f"{SHIM}{sign}{rest}"
        if head in self.crates:
            return f"{ROOT}::{prefix}"
        return prefix

    def unused_parameters(self, item):
        """A parameter that contracts alone name begins with _."""
        if item.body is None:
            return
        open_ = self.next(item.keyword)
        while self.text(open_) != "(":
            open_ = behind_generics(self, open_) if self.text(open_) == "<" else self.next(open_)
        body = list(self.code(item.body, item.last))
        used = {self.texts[i] for i in body if self.kinds[i] == "word"}
        texts = "".join(self.texts[i] for i in body if self.kinds[i] == "text")
        i = self.next(open_)
        while i < self.close(open_):
            name = self.next(i) if self.text(i) == "mut" else i
            word = self.text(name)
            if self.text(self.next(name)) == ":" and word not in used and "{" + word not in texts and word[0] != "_":
                self.written[name] = "_" + word
            comma = self.find_comma(i, self.close(open_))
            i = self.next(comma)

    def find_comma(self, i, end):
        """The comma that ends a parameter, outside of brackets and generics."""
        depth = 0
        while i < end and (depth or self.text(i) != ","):
            depth += (self.text(i) == "<") - (self.text(i) == ">")
            i = self.next(self.close(i))
        return i

    def unused_counts(self, item):
        """A `for` whose variable its body doesn't name counts by _."""
        for i in self.code(item.body, item.last) if item.body else ():
            name = self.next(i)
            if self.text(i) == "for" and self.text(self.next(name)) == "in":
                body = self.find(name, "{")
                words = {self.texts[j] for j in self.code(body, self.close(body))}
                if self.text(name) not in words and not any("{" + self.text(name) in word for word in words):
                    self.written[name] = "_"

    def reasons(self, item):
        """Puts above each statement that unwraps why that can't fail."""
        for i in self.code(item.body, item.last) if item.body else ():
            if self.kinds[i] != "word" or self.text(i) not in ("unwrap", "expect", "unreachable"):
                continue
            name = self.full_name(item)
            reason = self.reviewed.reason("unwrap", self.name, name)
            if reason is None:
                self.fail(i, f"{name} unwraps, and reviewed.txt has no reason: add 'unwrap {self.name} {name}: REASON'")
            start = i
            while self.text(self.before(start)) not in (";", "{", "}"):
                start = self.before(self.partner[self.before(start)]) if self.text(self.before(start)) in CLOSING else self.before(start)
            self.written[start] = f"// ({reason})\n" + self.written[start]

    def full_name(self, item):
        of = getattr(item.parent, "self_type", None) if item.parent else None
        return f"{of.name}::{item.name}" if of else item.name

    def unread(self, item):
        """Fields and variants that stay for the definitions alone are allowed to, with the reason."""
        for i in self.code(self.next(item.body), self.before(item.last)):
            if self.text(self.before(i)) in ("{", ",", "pub", ")", "]") and self.kinds[i] == "word":
                reason = self.reviewed.reason("unread", self.name, f"{item.name}::{self.text(i)}")
                if reason is not None:
                    start = i
                    while self.text(self.before(start)) not in ("{", ","):
                        start = self.before(start)
                    self.written[start] = f"#[allow(dead_code)] // ({reason})\n" + self.written[start]

    def drop_impl(self, item):
        """impl Drop for .. { fn drop(self) .. }"""
        for i in self.code(item.first, item.body):
            if self.text(i) == "Drop" and self.text(self.next(i)) == "for":
                self.written[i] = "::core::ops::Drop"
        for i in self.code(item.body, item.last):
            if self.text(i) == "self" and self.text(self.before(self.before(i))) == "drop":
                self.written[i] = "&mut self"

    def drop_bound(self, i):
        """T: Drop  says in Rattle that values may be dropped, as any may be in Rust."""
        if self.text(self.before(i)) == "+":
            self.cut(self.before(i), i)
        elif self.text(self.next(i)) == "+":
            self.cut(i, self.next(self.next(i)) - 1)
        else:
            self.cut(self.before(i), i)

    def derive(self, i):
        """#[derive(.., Drop, thiserror::Error, ..)]"""
        open_ = self.next(i)
        close = self.close(open_)
        names = [name.strip() for name in "".join(self.texts[open_ + 1:close]).split(",") if name.strip()]
        kept = [name for name in names if name not in ("Drop", "thiserror::Error")]
        if kept == names:
            return
        if "thiserror::Error" in names:
            self.derive_error(self.next(self.next(close)))
        if kept:
            self.cut(open_ + 1, close - 1)
            self.written[open_] = "(" + ", ".join(kept)
        else:
            self.cut(self.before(self.before(i)), self.next(close))

    def derive_error(self, i):
        """What thiserror derives for an enum whose variants have `#[error("text")]`, or `#[error(transparent)]` and `#[from]`."""
        while self.text(i) != "enum":
            i = self.next(i)
        name = self.text(self.next(i))
        body = self.next(self.next(i))
        end = self.close(body)
        arms, conversions, told = [], [], None
        i = self.next(body)
        while i < end:
            if self.text(i) == "#":
                close = self.close(self.next(i))
                told = self.next(self.next(self.next(self.next(i))))
                self.cut(i, close)
                i = self.next(close)
                continue
            variant, at, i = self.text(i), i, self.next(i)
            if self.text(told) == "transparent":
                close = self.close(i)
                type_ = self.next(self.close(self.next(self.next(i))))
                self.cut(self.next(i), type_ - 1)
                of = self.rooted("".join(self.texts[k] for k in self.code(type_, self.before(close))))
                arms.append(f"{name}::{variant}(error) => {SHIM}::fmt::Display::fmt(error, f),")
                conversions.append(
                    f"impl From<{of}> for {name} {{ fn from(error: {of}) -> Self {{ {name}::{variant}(error) }} }}")
                i = self.next(close)
            elif self.kinds[told] == "text" and "{" not in self.text(told):
                fields = "(..)" if self.text(i) == "(" else ""
                arms.append(f"{name}::{variant}{fields} => f.write_str({self.text(told)}),")
                i = self.next(self.close(i)) if fields else i
            else:
                self.fail(at, f"{variant} has an error that isn't known")
            i = self.next(i)
        shown = (
            f"impl {SHIM}::fmt::Display for {name} {{"
            f" fn fmt(&self, f: &mut {SHIM}::fmt::Formatter<'_>) -> {SHIM}::fmt::Result {{ match self {{ {' '.join(arms)} }} }} }}")
        self.written[end] = "\n\n".join(["}", shown, f"impl {SHIM}::error::Error for {name} {{}}", *conversions])

    def plain_fmt(self, i):
        """fn fmt<W: fmt::Write>(&self, f: &mut fmt::Formatter<W>) -> fmt::Result"""
        close = i
        while self.text(close) != ">":
            close = self.next(close)
        self.cut(self.next(i), close)
        while self.text(close) != "Formatter":
            close = self.next(close)
        self.written[self.next(self.next(close))] = "'_"

    def inclusive(self, i):
        """A pattern 2..4 as 2..=3, which older compilers take."""
        last = self.next(i)
        if self.kinds[last] == "number" and self.text(self.next(last)) in ("=>", "|", "if"):
            self.written[i] = "..="
            self.written[last] = str(int(self.texts[last], 0) - 1)

    def plain_let(self, i):
        """let PATTERN = VALUE else { BODY }; as a match"""
        equals = self.at_depth_0(i, "=")
        otherwise = self.at_depth_0(i, "else")
        if not equals or not otherwise or self.text(self.before(otherwise)) == "}":
            return
        pattern = range(self.next(i), equals)
        names = [j for j in pattern if self.is_binding(j)]
        mutable = [("mut " if self.text(self.before(j)) == "mut" else "") + self.text(j) for j in names]
        matched = "".join(self.written[j] for j in pattern if self.text(j) != "mut").strip()
        self.cut(pattern[0], pattern[-1])
        self.moved.update(pattern)
        self.written[i] = f"let {listed(mutable)} "
        self.written[equals] = "= match"
        self.written[otherwise] = f"{{ {matched} => {listed([self.text(j) for j in names])}, _ =>"
        self.written[self.close(self.next(otherwise))] = "} }"

    def at_depth_0(self, i, wanted):
        """The first such token of a statement outside of brackets."""
        while self.text(i) not in (wanted, ";"):
            i = self.next(self.close(i))
        return i if self.text(i) == wanted else None

    def is_binding(self, i):
        """Whether a word of a pattern is a name that it gives."""
        if self.kinds[i] != "word" or not re.match(r"[a-z_]", self.text(i)) or self.text(i) in ("ref", "mut", "_"):
            return False
        return "::" != self.text(self.before(i)) and self.text(self.next(i)) not in ("::", "(", ":")

    def place(self, i):
        """Paths that begin with a crate's name."""
        text, before = self.texts[i], self.text(self.before(i))
        if self.written[i] == CUT or self.text(self.next(i)) != "::" or before == "::":
            return
        if text == "crate":
            self.written[i] = f"{ROOT}::{self.crate}"
        elif text in self.crates:
            self.written[i] = f"{ROOT}::{text}"
        elif text == "std":
            self.written[i] = SHIM
        elif text == "str" and self.text(self.next(self.next(i))) == "from_utf8":
            self.written[i] = "core::str"

    def layout(self):
        """The text of the file."""
        self.check()
        self.plain_comments()
        for i in range(1, len(self.texts)):
            if self.kinds[i] == "space" and self.kinds[i - 1] == "doc" and self.written[i] != CUT:
                self.written[i] = "\n" + self.written[i].rpartition("\n")[2]
        lines = []
        for line in "".join(self.written).split("\n"):
            kept = line.replace(CUT, "").rstrip()
            if kept or (CUT not in line and lines and lines[-1]):
                lines.append(kept)
        imports = self.prelude()
        if imports:
            head = 0
            while lines[head].startswith("//!"):
                head += 1
            lines[head:head] = ["", *imports]
        return "\n".join(lines).strip() + "\n"

    def plain_comments(self):
        """Takes out of the comments what they say of proofs."""
        i = 0
        while i < len(self.texts):
            if self.kinds[i] not in COMMENTS or self.written[i] == CUT:
                i += 1
                continue
            run = [i]
            while self.kinds[run[-1] + 1:run[-1] + 3] == ["space", self.kinds[i]] and self.texts[run[-1] + 1].count("\n") == 1:
                run.append(run[-1] + 2)
            indent = len(self.texts[i - 1].rpartition("\n")[2]) if i else 0
            lines = [self.without_links(line) for line in plain([self.texts[k] for k in run], indent)]
            if lines != [self.texts[k] for k in run]:
                self.cut(run[0], run[-1])
                if lines:
                    self.written[run[0]] = ("\n" + " " * indent).join(lines)
            i = run[-1] + 1

    def without_links(self, line):
        """A line of a comment whose links to items that aren't written are none."""
        def unlinked(link):
            return link.group(1) if link.group(2) in self.absent else link.group()

        return LINK.sub(unlinked, line)

    def prelude(self):
        """What the stand-in's prelude has to give, each name with the feature that all its uses need."""
        levels = {}
        for i, word in enumerate(self.written):
            for name in self.needed(word):
                levels[name] = min(self.level_at(self.items, i, self.level), levels.get(name, max(FEATURES)))
        lines = []
        for wanted in sorted(set(levels.values())):
            names = ", ".join(sorted(name for name, level in levels.items() if level == wanted))
            gate = [f'#[cfg(feature = "{FEATURES[wanted]}")]'] if wanted > self.level else []
            lines += [*gate, f"use {SHIM}::prelude::{{{names}}};"]
        return lines

    @staticmethod
    def needed(word):
        """What of the prelude a word of the written text needs."""
        return {word} & (PRELUDE | HOST) | {name for name, methods in TRAITS.items() if word in methods}

    def level_at(self, all_items, i, level):
        """The level of the innermost item at a token."""
        for item in all_items:
            if item.first <= i <= item.last:
                return self.level_at(item.children, i, max(level, item.level or 0))
        return level

    def check(self):
        """What is left over of Rattle is an error, and so is what the rules have no business to cut."""
        for i, text in enumerate(self.texts):
            if self.written[i] == CUT or self.kinds[i] in ("space",) + COMMENTS:
                continue
            if self.gone[i]:
                self.fail(i, "a contract is left over")
            if self.kinds[i] == "word" and text in LEFT_OVER:
                self.fail(i, f"{text} is left over")
            after = self.next(i)
            if self.kinds[i] == "word" and self.text(i + 1) == "!" and self.text(i + 2) in OPENING and text not in MACROS:
                self.fail(i, f"{text}! is a macro that isn't known")
            if text == "#" and self.text(self.next(after) if self.text(after) == "[" else self.next(self.next(after))) not in ATTRIBUTES:
                self.fail(i, "an attribute that isn't known")
        self.check_bodies(self.items)

    def check_bodies(self, all_items):
        """A body that is written is written whole, but for the patterns that a rule puts elsewhere."""
        for item in all_items:
            if self.is_dropped(item):
                continue
            self.check_bodies(item.children)
            if item.kind in ("fn", "const", "static"):
                for i in self.code(item.body or item.keyword, item.last):
                    if self.written[i] == CUT and i not in self.moved:
                        self.fail(i, f"{item.name} would lose {self.text(i)}")


def listed(names):
    """One name, or a tuple of names."""
    return names[0] if len(names) == 1 else f"({', '.join(names)})"
