"""Which items the crate's calls reach, and at which level of features each is reached first.

Names are looked up as Rust does: a path through modules and imports to an item, and from a type to its members. What a
call by `.name(..)` means is not looked up: it reaches each method of that name, of each type that is reached.
"""
from collections import defaultdict

from .items import FEATURES, Item, path_words, read_use

FOREIGN = ("std", "core", "alloc", "::")
KEYWORDS = set(
    """as async await break const continue dyn else enum extern false fn for if impl in let loop match mod move mut pub ref
    return static struct true type union unsafe use where while""".split()
)
# Traits of Rust's own library that are imported for their methods.
TRAITS = {
    "Hash": {"hash"},
    "Hasher": {"finish", "write", "write_u8", "write_u16", "write_u32", "write_u64", "write_usize"},
    "FromStr": {"from_str"},
    "Write": {"write_fmt", "write_str", "write_char"},
    "Deref": {"deref"},
}


class Module:
    """A module, and what each name in it is: items, imports and modules."""

    def __init__(self, name, tokens, parent, item=None):
        self.name, self.tokens, self.parent, self.item = name, tokens, parent, item
        self.root = parent.root if parent else self
        self.names, self.items, self.inner, self.called, self.tests = defaultdict(list), [], [], set(), set()
        self.path = f"{parent.path}::{name}" if parent else name
        self.reached = None

    def add(self, items):
        """Adds items, and the modules in them."""
        for item in items:
            if item.is_test:
                self.tests.add(item.name)
                continue
            item.module = self
            self.items.append(item)
            if item.kind == "use":
                for name in item.names:
                    self.names[name.name].append(name)
            elif item.kind == "mod" and item.body:
                inner = Module(item.name, self.tokens, self, item)
                self.inner.append(inner)
                self.names[item.name].append(inner)
                inner.add(item.children)
            elif item.kind == "mod":
                pass
            elif item.kind != "impl":
                self.names[item.name].append(item)
                for child in item.children:
                    child.module = self
            else:
                for child in item.children:
                    child.module = self


class Reach:
    """Follows the names from the items that are reached."""

    def __init__(self, crates, plain, traits, reviewed):
        self.crates, self.plain, self.reviewed = crates, plain, reviewed
        proved = Module("proved", None, plain)
        plain.names["proved"].append(proved)
        for name, root in crates.items():
            proved.names[name].append(root)
        self.traits = {name: set(members) for name, members in TRAITS.items()}
        for name, members in traits.items():
            self.traits.setdefault(name, set()).update(members)
        self.level, self.queue, self.changed = 0, [], False
        self.reached, self.methods, self.wanted = [], set(), defaultdict(set)
        self.modules = [module for root in [*crates.values(), plain] for module in self.below(root)]
        self.impls = self.read_impls()

    def below(self, module):
        """A module and all in it."""
        yield module
        for inner in module.inner:
            yield from self.below(inner)

    def read_impls(self):
        """The impls of the generated modules with their types and traits; None for what isn't the sources' own."""
        found = []
        for module in self.modules:
            if module.root is self.plain:
                continue
            for item in module.items:
                if item.kind == "impl":
                    of = self.item_of(module, item.of, item.first) if item.of else None
                    trait = self.item_of(module, item.trait, item.first) if item.trait else None
                    item.self_type, item.self_trait = of, trait
                    found.append(item)
                elif item.kind == "trait":
                    item.self_type = item
        return found

    def item_of(self, module, path, at):
        """The item that a path at a token means, without reaching it; None for one that isn't the sources' own."""
        ends = []
        self.walk(module, [(word, at) for word in path], lambda thing: None, ends.append)
        return next((end for end in ends if isinstance(end, Item)), None)

    # Paths.

    def start(self, module, words):
        """What the first word of a path means in a module, and how many words that takes."""
        head = words[0][0]
        if head == "crate":
            return [module.root]
        if head == "self":
            return [module]
        if head == "super":
            return [module.parent]
        # A function that is imported from the crate of its name isn't what a longer path begins with.
        things = [it for it in module.names.get(head, ()) if len(words) == 1 or getattr(it, "path", None) != [head, head]]
        if things:
            return things
        if module.root is not self.plain and head in self.crates:
            return [self.crates[head]]
        return []

    def walk(self, module, words, passed, ended):
        """Follows a path: `passed` is given each thing on the way, `ended` the items and what is left of the path after them."""
        if words[0][0] in FOREIGN and words[0][0] not in module.names:
            return
        for thing in self.start(module, words):
            self.follow(thing, words[1:], module, passed, ended)

    def follow(self, thing, rest, module, passed, ended):
        passed(thing)
        if isinstance(thing, Module):
            if not rest:
                return
            if rest[0][0] == "super":
                return self.follow(thing.parent, rest[1:], module, passed, ended)
            things = thing.names.get(rest[0][0])
            if things is None and thing is self.plain and rest[0][0] == "rattle":
                return
            if things is None:
                module.tokens.fail(rest[0][1], f"{rest[0][0]} is used, but {thing.path} has no such item")
            for inner in things:
                self.follow(inner, rest[1:], module, passed, ended)
        elif isinstance(thing, Item):
            ended(thing)
            if rest:
                self.member(thing, rest[0][0])
        else:
            inner = thing.item.module
            words = [(word, thing.at) for word in thing.path]
            if words[0][0] == thing.name and thing in inner.names[thing.name] and words[0][0] in self.crates:
                self.follow(self.crates[words[0][0]], words[1:] + rest, inner, passed, ended)
            elif words[0][0] not in FOREIGN:
                self.walk(inner, words + [(word, thing.at) for word, _ in rest], passed, ended)

    def member(self, item, name):
        """A member of a type or trait is wanted by its path."""
        if item.kind == "type":
            tokens = item.module.tokens
            for i in tokens.code(item.first, item.last):
                if tokens.kinds[i] == "word" and tokens.text(i) in item.module.names:
                    target = self.item_of(item.module, [tokens.text(i)], i)
                    if target and target is not item:
                        self.member(target, name)
        if name not in self.wanted[id(item)]:
            self.wanted[id(item)].add(name)
            self.changed = True

    # Reaching.

    def run(self, level):
        """Reaches what the plain modules use at a level of features."""
        self.level = level
        for module in self.modules:
            if module.root is self.plain:
                for item in module.items:
                    if item.level == level:
                        self.mark(item)
        while True:
            self.changed = False
            while self.queue:
                self.scan_item(self.queue.pop())
            self.consider()
            if not self.changed and not self.queue:
                return

    def held_back(self, item):
        """Whether the reviewed list says that a member isn't reached, or not at this level."""
        name = f"{item.parent.self_type.name}::{item.name}" if item.parent and getattr(item.parent, "self_type", None) else item.name
        levels = [(None, "unused"), *((level, feature) for level, feature in FEATURES.items() if level > self.level)]
        return any(self.reviewed.reason(kind, item.file.name, name) for _, kind in levels)

    def mark(self, thing):
        if thing.reached is None and isinstance(thing, Item) and thing.module.root is not self.plain and self.held_back(thing):
            return
        if thing.reached is None:
            thing.reached = self.level
            self.changed = True
            if isinstance(thing, Item):
                self.reached.append(thing)
                self.queue.append(thing)

    def consider(self):
        """Reaches the members that are wanted of types and traits that are reached, and imports of traits whose methods are called."""
        for item in self.impls:
            if item.self_type is not None and item.self_type.reached is None:
                continue
            if item.trait is None:
                self.consider_members(item, self.wanted[id(item.self_type)])
            elif item.self_trait is None:
                self.mark(item)
                for child in item.children:
                    self.mark(child)
            elif item.self_trait.reached is not None:
                self.mark(item)
                members = {child.name for child in item.self_trait.children if child.reached is not None}
                for child in item.children:
                    if child.kind == "type" or child.name in members:
                        self.mark(child)
        for module in self.modules:
            self.consider_imports(module)
        for item in list(self.reached):
            if item.kind == "trait" and item.module.root is not self.plain:
                self.consider_members(item, self.wanted[id(item)] | self.wanted["any"])

    def consider_members(self, item, wanted):
        for child in item.children:
            is_called = child.name in self.methods and has_self(child)
            if is_called or child.name in wanted or child.kind == "type" or child.name in self.wanted["every"]:
                if item.kind == "impl":
                    self.mark(item)
                self.mark(child)

    def consider_imports(self, module):
        for name, things in list(module.names.items()):
            for thing in list(things):
                if isinstance(thing, Item):
                    if thing.kind == "trait" and module.called & {child.name for child in thing.children}:
                        self.mark(thing)
                elif not isinstance(thing, Module) and thing.reached is None:
                    trait = self.item_of(module, thing.path, thing.at) if thing.path[0] not in FOREIGN else None
                    members = {child.name for child in trait.children} if trait and trait.kind == "trait" else set()
                    if thing.path[0] in FOREIGN or module.root is self.plain:
                        members = self.traits.get(thing.path[-1], set())
                    if module.called & members:
                        self.mark(thing)
                        if trait:
                            self.mark(trait)

    def scan_item(self, item):
        """Follows the names of an item; of a type with members and of an impl, those of its head."""
        last = item.last
        if item.kind in ("impl", "trait") and item.body and item.module.root is not self.plain:
            last = item.body
        if item.kind == "use" or (item.kind == "mod" and item.body):
            if item.kind == "use" and item.module.root is self.plain:
                self.scan_imports(item)
            return
        self.scan(item.module, item.first, last, item)

    def scan_imports(self, item):
        for name in item.names:
            self.walk(item.module, [(word, name.at) for word in name.path], self.mark, self.mark)

    def scan(self, module, first, last, item):
        tokens = module.tokens
        i = tokens.next(first - 1)
        while i <= last:
            before = tokens.text(tokens.before(i))
            after = tokens.text(tokens.next(i))
            text = tokens.text(i)
            if tokens.kinds[i] != "word":
                pass
            elif before == ".":
                if after in ("(", "::"):
                    self.call(module, text)
            elif before == "::":
                previous = tokens.text(tokens.before(tokens.before(i)))
                if previous == ">" and not self.is_turbofish(tokens, i):
                    self.want("any", text)
                    self.want("every", text)
            elif text == "use":
                use = read_use(tokens, item.file, i, i, item)
                use.module = module
                self.scan_local(module, use)
                i = use.last
            elif text not in KEYWORDS:
                if after == "!" and text in ("write", "writeln"):
                    self.call(module, "write_fmt")
                self.path(module, path_words(tokens, i)[0], item)
            i = tokens.next(i)

    def is_turbofish(self, tokens, i):
        """Whether the generics before `::` at a token are those of a path, as in `Vec::<u8>::new`."""
        depth, at = 0, tokens.before(tokens.before(i))
        while True:
            depth += (tokens.text(at) == ">") - (tokens.text(at) == "<")
            if depth == 0:
                return tokens.text(tokens.before(at)) == "::"
            at = tokens.before(at)

    def scan_local(self, module, use):
        """Imports inside of a function."""
        for name in use.names:
            self.walk(module, [(word, name.at) for word in name.path], self.mark, self.mark)

    def call(self, module, name):
        module.called.add(name)
        if name not in self.methods:
            self.methods.add(name)
            self.changed = True

    def want(self, what, name):
        if name not in self.wanted[what]:
            self.wanted[what].add(name)
            self.changed = True

    def path(self, module, words, item):
        head = words[0][0]
        if head == "Self":
            holder = item
            while holder.parent is not None and holder.kind not in ("impl", "trait"):
                holder = holder.parent
            of = getattr(holder, "self_type", None)
            if len(words) > 1:
                self.want("any", words[1][0])
                if of is not None:
                    self.member(of, words[1][0])
            return
        if not self.start(module, words) and head not in FOREIGN:
            if head in module.tests:
                module.tokens.fail(words[0][1], f"{head} is used, but is for tests alone")
            if len(words) > 1:
                self.want("any", words[-1][0])
            return
        self.walk(module, words, self.mark, self.ended)
        if len(words) > 1:
            module.called.add(words[-1][0])
            self.want("any", words[-1][0])

    def ended(self, item):
        self.mark(item)


def has_self(item):
    """Whether a function is a method."""
    tokens = item.module.tokens
    if item.kind != "fn":
        return False
    i = tokens.next(item.keyword)
    while tokens.text(i) != "(":
        i = tokens.next(i)
    words = [tokens.text(j) for j in tokens.code(i, tokens.close(i))][1:5]
    return "self" in words and ":" not in words[:words.index("self")] and "," not in words[:words.index("self")]
