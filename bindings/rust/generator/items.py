"""The items of a file: functions, types, traits, impls, imports and modules, and where each is."""
import re

QUALIFIERS = ("const", "unsafe", "async", "extern")
FEATURE = re.compile(r'feature="([a-z-]+)"')
# What each set of features has: none, variable-fonts, program (which has variable-fonts too).
LEVELS = {"std": 0, "variable-fonts": 1, "program": 2}
FEATURES = {1: "variable-fonts", 2: "program"}


class Item:
    """An item and the tokens that it takes. `first` is its first token after the comments above it."""

    def __init__(self, file, kind, name, first, last, parent):
        self.file, self.kind, self.name, self.first, self.last, self.parent = file, kind, name, first, last, parent
        self.body, self.children, self.names, self.level = None, [], [], 0
        self.of, self.trait, self.reached, self.is_public = None, None, None, False
        self.keyword = first

    def __repr__(self):
        return f"{self.file.name}: {self.kind} {self.name}"


class Name:
    """A name that a `use` gives, and its path."""

    def __init__(self, name, path, at, item):
        self.name, self.path, self.at, self.item, self.reached = name, path, at, item, None


def attributes(tokens, i):
    """The tokens where the attributes before an item begin, and the item after them."""
    found = []
    while tokens.text(i) == "#":
        bracket = tokens.next(i)
        bracket = tokens.next(bracket) if tokens.text(bracket) == "!" else bracket
        found.append((i, tokens.close(bracket)))
        i = tokens.next(tokens.close(bracket))
    return found, i


def written(tokens, first, last):
    """The code of tokens without space."""
    return "".join(tokens.texts[i] for i in tokens.code(first, last))


def condition(tokens, attribute):
    """The level at which an attribute lets its item be there; None for that of tests, and for one that isn't known an error."""
    text = written(tokens, *attribute)
    if "cfg" not in text:
        return 0
    if text == "#[cfg(test)]":
        return None
    feature = FEATURE.search(text)
    if tokens.is_plain and feature:
        return 0 if "not(" in text else LEVELS[feature.group(1)]
    if tokens.is_plain and text in ("#[cfg(unix)]", "#[cfg(not(unix))]", "#[cfg(windows)]", "#[cfg(not(windows))]", '#[cfg(target_pointer_width="16")]'):
        return 0
    if tokens.is_plain and text.startswith("#[cfg_attr("):
        return 0
    tokens.fail(attribute[0], f"{text} changes what is compiled: cfg(test) alone is known")


def items(tokens, file, first, last, parent):
    """The items from a token to another."""
    found = []
    i = first if tokens.is_code(first) else tokens.next(first)
    while i <= last and i < len(tokens.texts):
        item = one(tokens, file, i, parent)
        if item is None:
            break
        # (the items in thread_local! are items as those around it)
        found += item.children if item.kind == "thread_local" else [item]
        i = tokens.next(item.last)
    return found


def one(tokens, file, i, parent):
    """The item that begins at a token."""
    start = i
    marks, i = attributes(tokens, i)
    if i >= len(tokens.texts):
        return None
    if tokens.text(i) in ("}", ""):
        tokens.fail(start, "an attribute without an item")
    public = tokens.text(i) == "pub"
    if public:
        i = tokens.next(i)
        i = tokens.next(tokens.close(i)) if tokens.text(i) == "(" else i
    levels = [condition(tokens, mark) for mark in marks if tokens.text(tokens.next(mark[0])) != "!"]
    keyword = i
    while tokens.text(keyword) in QUALIFIERS and tokens.text(tokens.next(keyword)) in QUALIFIERS + ("fn", "impl", "trait"):
        keyword = tokens.next(keyword)
    item = read_kind(tokens, file, start, keyword, parent)
    item.is_public, item.marks, item.keyword = public, marks, keyword
    item.is_test = None in levels
    item.level = max([level for level in levels if level] or [0])
    if parent is not None:
        item.is_test |= parent.is_test
        item.level = max(item.level, parent.level)
    if item.kind in ("impl", "trait", "mod", "thread_local") and item.body and not item.is_test:
        item.children = items(tokens, file, tokens.next(item.body), tokens.before(item.last), item)
    return item


def read_kind(tokens, file, start, i, parent):
    kind, name = tokens.text(i), tokens.next(i)
    if kind == "use":
        return read_use(tokens, file, start, i, parent)
    if kind in ("const", "static", "type"):
        name = tokens.next(name) if tokens.text(name) == "mut" else name
        end = tokens.find(name, ";")
    elif kind in ("fn", "struct", "enum", "trait", "mod"):
        end = tokens.find(name, ";", "{")
    elif kind == "impl":
        end = tokens.find(i, "{")
    elif kind == "extern" and tokens.text(name) == "crate":
        end = tokens.find(name, ";")
    elif kind == "macro_rules" and tokens.is_plain:
        end = tokens.find(tokens.next(name), "{")
    elif kind == "thread_local" and tokens.is_plain and tokens.text(tokens.next(name)) == "{":
        end = tokens.next(name)
    else:
        tokens.fail(i, f"an item of a kind that isn't known: {kind}")
    if end is None:
        tokens.fail(i, f"{kind} {tokens.text(name)} doesn't end")
    item = Item(file, kind, tokens.text(name), start, tokens.close(end), parent)
    item.body = end if tokens.text(end) == "{" else None
    if kind == "impl":
        read_impl(tokens, item, i)
    return item


def read_impl(tokens, item, i):
    """impl<..> TRAIT for TYPE where .. {..}"""
    at = tokens.next(i)
    if tokens.text(at) == "<":
        at = behind_generics(tokens, at)
    first, trait = at, None
    depth = 0
    while at < item.body:
        text = tokens.text(at)
        depth += (text == "<") - (text == ">")
        if text == "for" and depth == 0:
            trait, first = (first, tokens.before(at)), tokens.next(at)
        if text == "where" and depth == 0:
            break
        at = tokens.next(tokens.close(at)) if at in tokens.partner else tokens.next(at)
    item.trait = path_at(tokens, trait[0]) if trait else None
    item.of = path_at(tokens, first) if tokens.kinds[first] == "word" else None
    item.name = f"{'::'.join(item.trait) + ' for ' if trait else ''}{written(tokens, first, tokens.before(at))}"


def behind_generics(tokens, i):
    """The token after the <..> that begins at a token."""
    depth = 0
    while True:
        depth += (tokens.text(i) == "<") - (tokens.text(i) == ">")
        i = tokens.next(i)
        if depth == 0:
            return i


def path_at(tokens, i):
    """The words of the path at a token, without generics."""
    return [word for word, _ in path_words(tokens, i)[0]]


def path_words(tokens, i):
    """The words of the path at a token with their tokens, and the token after it."""
    words = [(tokens.text(i), i)]
    i = tokens.next(i)
    while tokens.text(i) == "::":
        after = tokens.next(i)
        if tokens.text(after) == "<":
            i = behind_generics(tokens, after)
            continue
        if tokens.kinds[after] != "word":
            break
        words.append((tokens.text(after), after))
        i = tokens.next(after)
    return words, i


def read_use(tokens, file, start, i, parent):
    """use PATH;  use PATH as NAME;  use PATH::{..};"""
    end = tokens.find(i, ";")
    item = Item(file, "use", "", start, end, parent)
    read_tree(tokens, tokens.next(i), [], item)
    return item


def read_tree(tokens, i, prefix, item):
    """The names of a tree of imports; returns the token after it."""
    path = list(prefix)
    if tokens.text(i) == "::":
        path.append("::")
        i = tokens.next(i)
    while True:
        if tokens.text(i) == "{":
            end = tokens.close(i)
            i = tokens.next(i)
            while i < end:
                i = read_tree(tokens, i, path, item)
                i = tokens.next(i) if tokens.text(i) == "," else i
            return tokens.next(end)
        at, word = i, tokens.text(i)
        i = tokens.next(i)
        if word == "self" and path:
            word = path[-1]
        else:
            path.append(word)
        if tokens.text(i) == "::":
            i = tokens.next(i)
            continue
        name = word
        if tokens.text(i) == "as":
            name = tokens.text(tokens.next(i))
            i = tokens.next(tokens.next(i))
        item.names.append(Name(name, path, at, item))
        return i
