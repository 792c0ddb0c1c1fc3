"""A second reading of variable fonts with TrueType outlines, in whole numbers, written from OpenType's chapters: what variable.py compares the
instances of the port with. A glyph's points are in parts of 2^30 until they are rounded, once."""

UNIT = 1 << 30
# No point may lie further from 0 than 32768 units, and components no deeper.
FAR, DEEPEST = 32768 * UNIT, 65


class Fault(Exception):
    """What speaks against an instance, by the name of its error."""


def need(it, name="MalformedFont"):
    if not it:
        raise Fault(name)


def cut(data, at, size):
    need(0 <= at and at + size <= len(data))
    return data[at:at + size]


def number(data, at, size=2, signed=False):
    return int.from_bytes(cut(data, at, size), "big", signed=signed)


def need_version_1(table):
    """Another major version isn't read."""
    need(table is None or len(table) < 2 or number(table, 0) == 1, "Unimplemented")


def nearest(a, b):
    """a / b to the nearest whole number, halves up."""
    return (2 * a + b) // (2 * b)


class Bytes:
    """Bytes that are read from the front."""

    def __init__(self, data):
        self.data, self.at = data, 0

    def take(self, size):
        self.at += size
        return cut(self.data, self.at - size, size)

    def number(self, size=2, signed=False):
        return int.from_bytes(self.take(size), "big", signed=signed)


# ---- coordinates

def axes_of(fvar):
    first, count, size = number(fvar, 4), number(fvar, 8), number(fvar, 10)
    need(size >= 20)
    rows = [cut(fvar, first + i * size, size) for i in range(count)]
    return [(row[:4], *(number(row, at, 4, True) for at in (4, 8, 12))) for row in rows]


def normalized(axis, value):
    _, low, default, high = axis
    if value < default:
        return 0 if default <= low else -65536 if value <= low else nearest((value - default) * 65536, default - low)
    if value > default:
        return 0 if high <= default else 65536 if high <= value else nearest((value - default) * 65536, high - default)
    return 0


def counting(pairs):
    """The pairs that count: fromCoordinate is above those of all pairs before, toCoordinate not below that of the last one that counts."""
    kept = []
    for at, (a, b) in enumerate(pairs):
        if not kept or a > max(c for c, _ in pairs[:at]) and b >= kept[-1][1]:
            kept.append((a, b))
    return kept


def bent(pairs, n):
    pairs = counting(pairs)
    if not all((v, v) in pairs for v in (-16384, 0, 16384)):
        return n
    for (a, b), (c, d) in zip(pairs, pairs[1:]):
        if 4 * a <= n < 4 * c:
            return 4 * b + nearest((n - 4 * a) * (4 * d - 4 * b), 4 * c - 4 * a)
    return n


def settings_of(place):
    return [(tag.encode("latin-1"), value) for tag, value in place]


def place_of(font, settings):
    """The normalized coordinates, in F2Dot14."""
    fvar, avar = font.get(b"fvar"), font.get(b"avar")
    if fvar is None:
        return []
    need_version_1(fvar)
    need_version_1(avar)
    axes = axes_of(fvar)
    user = [[value for tag, value in settings if tag == axis[0]][-1:] for axis in axes]
    along = [normalized(axis, values[0] if values else axis[2]) for axis, values in zip(axes, user)]
    if avar is not None:
        need(number(avar, 6) == len(axes))
        rest = Bytes(avar)
        rest.take(8)
        maps = []
        for _ in axes:
            count = rest.number()
            maps.append([(rest.number(2, True), rest.number(2, True)) for _ in range(count)])
        along = [bent(pairs, n) for pairs, n in zip(maps, along)]
    return [nearest(n, 4) for n in along]


# ---- scalars

def scalar(region, at):
    whole = UNIT
    for (start, peak, end), c in zip(region, at):
        if peak == 0 or start > peak or peak > end or start < 0 < end or c == peak:
            continue
        if c <= start or end <= c:
            return 0
        near = start if c < peak else end
        whole = nearest(whole * abs(c - near), abs(peak - near))
    return whole


# ---- gvar

def words(data):
    return [number(data, at, 2, True) for at in range(0, len(data), 2)]


class Gvar:
    def __init__(self, data):
        self.axes, shared, where, self.count, flags, first = (number(data, at, size) for at, size in ((4, 2), (6, 2), (8, 4), (12, 2), (14, 2), (16, 4)))
        size = self.axes * 2
        shared = cut(data, where, shared * size)
        self.shared = [words(shared[at:at + size]) for at in range(0, len(shared), size)] if size else [[]] * 4096
        each = 4 if flags & 1 else 2
        offsets = cut(data, 20, (self.count + 1) * each)
        self.offsets = [number(offsets, at, each) * (1 if each == 4 else 2) for at in range(0, len(offsets), each)]
        need(first <= len(data))
        self.data = data[first:]

    def of(self, glyph):
        need(glyph < self.count and self.offsets[glyph] <= self.offsets[glyph + 1])
        return cut(self.data, self.offsets[glyph], self.offsets[glyph + 1] - self.offsets[glyph])


def runs(rest, count, of_control):
    """Packed runs up to a count, with which a run has to end."""
    made = []
    while len(made) < count:
        control = rest.number(1)
        length, one = of_control(control)
        for _ in range(length):
            need(len(made) < count)
            made.append(one(rest))
    return made


def packed_deltas(rest, count):
    def of_control(control):
        length = (control & 63) + 1
        if control & 128:
            return length, lambda rest: 0
        return length, lambda rest: rest.number(2 if control & 64 else 1, True)
    return runs(rest, count, of_control)


def packed_points(rest, count):
    """The numbers of points, which ascend, or None for all."""
    first = rest.number(1)
    many = first if first < 128 else (first - 128) * 256 + rest.number(1)
    if many == 0:
        return None
    steps = runs(rest, many, lambda control: ((control & 127) + 1, lambda rest: rest.number(2 if control & 128 else 1)))
    points, last = [], 0
    for step in steps:
        last += step
        need(last < count and (not points or last > points[-1]))
        points.append(last)
    return points


def inferred(x, one, other, s):
    (x1, d1), (x2, d2) = sorted([one, other], key=lambda it: it[0])
    if x1 == x2:
        return s * d1 if d1 == d2 else 0
    if x <= x1:
        return s * d1
    if x2 <= x:
        return s * d2
    return nearest(s * (d1 * (x2 - x) + d2 * (x - x1)), x2 - x1)


def moves(values, ends, deltas, s):
    """By how much a tuple moves each point along one axis."""
    moved, start = [], 0
    for end in ends:
        held = [k for k in range(start, end + 1) if k in deltas]
        for k in range(start, end + 1):
            if k in deltas:
                moved.append(s * deltas[k])
            elif not held:
                moved.append(0)
            else:
                before = max((h for h in held if h < k), default=held[-1])
                after = min((h for h in held if h > k), default=held[0])
                moved.append(inferred(values[k], (values[before], deltas[before]), (values[after], deltas[after]), s))
        start = end + 1
    return moved


class Steps:
    def __init__(self, left):
        self.left = left

    def take(self, n):
        need(n <= self.left, "OverflowError")
        self.left -= n


def varied(gvar, glyph, xs, ys, ends, at, steps):
    """The points of a glyph at a place, in parts of 2^30; the last four are its phantom points."""
    to_x, to_y = [UNIT * x for x in xs], [UNIT * y for y in ys]
    data = gvar.of(glyph) if gvar else b""
    if not data:
        return to_x, to_y
    heads, count = Bytes(data), len(xs)
    tuples, first = heads.number(), heads.number()
    need(first <= len(data))
    rest = Bytes(data[first:])
    shared = packed_points(rest, count) if tuples & 0x8000 else None
    for _ in range(tuples & 0x0FFF):
        steps.take(1)
        size, flags = heads.number(), heads.number()
        if flags & 0x8000:
            peaks = words(heads.take(gvar.axes * 2))
        else:
            need(flags & 0x0FFF < len(gvar.shared))
            peaks = gvar.shared[flags & 0x0FFF]
        if flags & 0x4000:
            starts, stops = words(heads.take(gvar.axes * 2)), words(heads.take(gvar.axes * 2))
        else:
            starts, stops = [min(p, 0) for p in peaks], [max(p, 0) for p in peaks]
        own = Bytes(rest.take(size))
        s = scalar(list(zip(starts, peaks, stops)), at)
        if s == 0:
            continue
        steps.take(count)
        numbers = packed_points(own, count) if flags & 0x2000 else shared
        numbers = list(range(count)) if numbers is None else numbers
        dx = dict(zip(numbers, packed_deltas(own, len(numbers))))
        dy = dict(zip(numbers, packed_deltas(own, len(numbers))))
        to_x = [a + b for a, b in zip(to_x, moves(xs, ends, dx, s))]
        to_y = [a + b for a, b in zip(to_y, moves(ys, ends, dy, s))]
    return to_x, to_y


# ---- HVAR

def item_delta(store, at, outer, inner):
    if outer == inner == 0xFFFF:
        return 0
    need(number(store, 0) == 1)
    where = number(store, 2, 4)
    axes, count = number(store, where), number(store, where + 2)
    need(where and axes == len(at))
    regions = cut(store, where + 4, count * axes * 6)
    need(outer < number(store, 6))
    data = number(store, 8 + 4 * outer, 4)
    items, longs, many = number(store, data), number(store, data + 2), number(store, data + 4)
    words_, size = longs & 0x7FFF, 4 if longs & 0x8000 else 2
    need(data and inner < items and words_ <= many)
    row = Bytes(cut(store, data + 6 + 2 * many + inner * (many + words_) * size // 2, (many + words_) * size // 2))
    total = 0
    for k in range(many):
        delta = row.number(size if k < words_ else size // 2, True)
        index = number(store, data + 6 + 2 * k)
        need(index < count)
        region = words(regions[index * axes * 6:(index + 1) * axes * 6])
        total += delta * scalar([tuple(region[i:i + 3]) for i in range(0, 3 * axes, 3)], at)
    return total


def advance_index(hvar, glyph):
    where = number(hvar, 8, 4)
    if where == 0:
        return 0, glyph
    kind, form = number(hvar, where, 1), number(hvar, where + 1, 1)
    need(kind < 2)
    count = number(hvar, where + 2, 4 if kind else 2)
    need(count)
    size, bits = (form >> 4 & 3) + 1, (form & 15) + 1
    entry = number(hvar, where + (6 if kind else 4) + min(glyph, count - 1) * size, size)
    return entry >> bits, entry & ((1 << bits) - 1)


def store_at(table, where, at):
    """The item variation store there: it has the font's axes, before an item is looked for."""
    need(where and where <= len(table))
    store = table[where:]
    regions = number(store, 2, 4)
    need(number(store, 0) == 1 and regions and number(store, regions) == len(at))
    cut(store, regions + 4, number(store, regions + 2) * len(at) * 6)
    return store


def advance_delta(hvar, at, glyph):
    store = store_at(hvar, number(hvar, 4, 4), at)
    return item_delta(store, at, *advance_index(hvar, glyph))


# ---- MVAR

# Where a metric is in its table.
LINES = {b"hhea": {4: b"hasc", 6: b"hdsc", 8: b"hlgp", 18: b"hcrs", 20: b"hcrn", 22: b"hcof"}, b"post": {8: b"undo", 10: b"unds"}}


def metric_delta(mvar, at, tag):
    size, count = number(mvar, 6), number(mvar, 8)
    need(size >= 8)
    for k in range(count):
        record = cut(mvar, 12 + k * size, 8)
        if record[:4] == tag:
            return item_delta(store_at(mvar, number(mvar, 10), at), at, number(record, 4), number(record, 6))
    return 0


def varied_lines(mvar, at, tag, table):
    """`hhea` or `post`, of which some metrics vary."""
    if mvar is None or table is None or len(table) < max(LINES[tag]) + 2:
        return table
    table = bytearray(table)
    for where, metric in LINES[tag].items():
        delta = metric_delta(mvar, at, metric)
        need(abs(delta) < 1 << 62, "OverflowError")
        value = number(table, where, 2, True) + nearest(delta, UNIT)
        need(-32768 <= value <= 32767, "OverflowError")
        table[where:where + 2] = (value % 65536).to_bytes(2, "big")
    return bytes(table)


def slanted(font, settings, at, post):
    """`post`, whose italicAngle is the coordinate on `slnt`, where the font has this axis and is off its default."""
    axis = next((it for it in axes_of(font[b"fvar"]) if it[0] == b"slnt"), None) if any(at) else None
    if axis is None or post is None or len(post) < 8:
        return post
    _, low, default, high = axis
    value = ([default] + [value for tag, value in settings if tag == b"slnt"])[-1]
    angle = max(min(value, max(high, default)), min(low, default))
    return post[:4] + (angle % (1 << 32)).to_bytes(4, "big") + post[8:]


# ---- a font: its outlines, metrics and tables at coordinates

def simple(data):
    """The ends of the contours, and each point: x, y, whether it is on the curve."""
    if not data:
        return [], []
    count = number(data, 0, 2, True)
    rest = Bytes(data)
    rest.take(10)
    need(count >= 0)
    if count == 0:
        return [], []
    ends = []
    for _ in range(count):
        ends.append(rest.number())
        need(len(ends) == 1 or ends[-1] > ends[-2])
    rest.take(rest.number())
    flags = []
    while len(flags) <= ends[-1]:
        flag = rest.number(1)
        flags += [flag] * (1 + (rest.number(1) if flag & 8 else 0))
    need(len(flags) == ends[-1] + 1)
    both = []
    for short, same in ((2, 16), (4, 32)):
        value, values = 0, []
        for flag in flags:
            if flag & short:
                value += rest.number(1) * (1 if flag & same else -1)
            elif not flag & same:
                value += rest.number(2, True)
            need(-32768 <= value <= 32767)
            values.append(value)
        both.append(values)
    return ends, [(x, y, flag & 1) for x, y, flag in zip(*both, flags)]


def components(data):
    """Each component: flags, glyph, its two arguments, and its matrix or None."""
    rest = Bytes(data)
    rest.take(10)
    found, flags = [], 0x20
    while flags & 0x20:
        flags, glyph = rest.number(), rest.number()
        size, signed = 2 if flags & 1 else 1, bool(flags & 2)
        arguments = rest.number(size, signed), rest.number(size, signed)
        matrix = None
        if flags & 0x08:
            one = rest.number(2, True)
            matrix = one, 0, 0, one
        elif flags & 0x40:
            matrix = rest.number(2, True), 0, 0, rest.number(2, True)
        elif flags & 0x80:
            matrix = tuple(rest.number(2, True) for _ in range(4))
        found.append((flags, glyph, arguments, matrix))
    return found


class Unfolded:
    """A glyph at a place: the ends of its contours, its points (x, y, on), and its left and its right side."""

    def __init__(self, ends, points, left, right):
        self.ends, self.points, self.left, self.right = ends, points, left, right
        need(all(abs(v) <= FAR for x, y, _ in points for v in (x, y)), "OverflowError")


class Font:
    """A font of a file by itself at a place."""

    def __init__(self, data, settings):
        tables = directory(data)
        need(b"glyf" in tables, "Unimplemented" if b"CFF " in tables else "UnknownKind")
        self.tables, self.settings, self.at = tables, settings, place_of(tables, settings)
        for tag in (b"gvar", b"HVAR", b"MVAR"):
            need_version_1(tables.get(tag))
        need(all(tag in tables for tag in (b"loca", b"head", b"maxp", b"hhea", b"hmtx")))
        self.long = number(tables[b"head"], 50) != 0
        self.count, self.pairs = number(tables[b"maxp"], 4), number(tables[b"hhea"], 34)
        self.gvar = Gvar(tables[b"gvar"]) if b"gvar" in tables else None
        need(self.gvar is None or self.gvar.axes == len(self.at))

    def description(self, glyph):
        loca = self.tables[b"loca"]
        first, last = (number(loca, it * 4, 4) if self.long else 2 * number(loca, it * 2) for it in (glyph, glyph + 1))
        need(first <= last)
        return cut(self.tables[b"glyf"], first, last - first)

    def metric(self, glyph):
        hmtx, pairs = self.tables[b"hmtx"], self.pairs
        if glyph < pairs:
            return number(hmtx, 4 * glyph), number(hmtx, 4 * glyph + 2, 2, True)
        need(pairs)
        return number(hmtx, 4 * pairs - 4), number(hmtx, 4 * pairs + 2 * (glyph - pairs), 2, True)

    def unfolded(self, glyph, steps, depth=0):
        need(depth < DEEPEST and glyph < self.count)
        data = self.description(glyph)
        advance, bearing = self.metric(glyph)
        side = (number(data, 2, 2, True) if len(data) >= 4 else 0) - bearing
        is_composite = len(data) >= 2 and data[0] >= 0x80
        if is_composite:
            parts = components(data)
            points = [(*it[2], 1) if it[0] & 2 else (0, 0, 1) for it in parts]
            ends = list(range(len(parts)))
        else:
            ends, points = simple(data)
        steps.take(len(points) + 5)
        xs, ys = [p[0] for p in points] + [0] * 4, [p[1] for p in points] + [0] * 4
        n = len(points)
        to_x, to_y = varied(self.gvar, glyph, xs, ys, ends + [n, n + 1, n + 2, n + 3], self.at, steps)
        left, right = side * UNIT + to_x[n], (side + advance) * UNIT + to_x[n + 1]
        if not is_composite:
            return Unfolded(ends, list(zip(to_x, to_y, [p[2] for p in points])), left, right)
        all_ends, all_points = [], []
        for k, part in enumerate(parts):
            inner = self.unfolded(part[1], steps, depth + 1)
            if part[0] & 0x0200:
                left, right = inner.left, inner.right
            for x, y, on in self.placed(part, inner.points, all_points, to_x[k], to_y[k]):
                all_points.append((x, y, on))
            all_ends += [len(all_points) - len(inner.points) + end for end in inner.ends]
        return Unfolded(all_ends, all_points, left, right)

    def placed(self, part, points, before, dx, dy):
        """The points of a component, placed after others."""
        flags, _, arguments, matrix = part
        if matrix:
            a, b, c, d = matrix
            points = [(nearest(a * x + c * y, 16384), nearest(b * x + d * y, 16384), on) for x, y, on in points]
        # (where an offset may be scaled or not, it is not)
        need(flags & 0x1802 != 0x0802 or matrix in (None, (16384, 0, 0, 16384)), "Unimplemented")
        if not flags & 2:
            one, other = arguments
            need(one < len(before) and other < len(points))
            dx, dy = before[one][0] - points[other][0], before[one][1] - points[other][1]
        return [(x + dx, y + dy, on) for x, y, on in points]

    def drawn(self, glyph, steps):
        """What an instance has of a glyph: ends, points, advance and bearing; and the glyph before rounding."""
        it = self.unfolded(glyph, Steps(steps))
        points = [(nearest(x - it.left, UNIT), nearest(y, UNIT), on) for x, y, on in it.points]
        if b"HVAR" in self.tables:
            advance = self.metric(glyph)[0] + nearest(advance_delta(self.tables[b"HVAR"], self.at, glyph), UNIT)
        else:
            advance = nearest(it.right - it.left, UNIT)
        advance = max(advance, 0)
        for axis in (0, 1):
            values = [0] + [p[axis] for p in points]
            need(all(-32768 <= v <= 32767 for v in values), "OverflowError")
            need(all(-32768 <= b - a <= 32767 for a, b in zip(values, values[1:])), "OverflowError")
        need(advance < 65536 and len(points) <= 65536 and len(it.ends) <= 32767, "OverflowError")
        return it.ends, points, advance, min((p[0] for p in points), default=0), it

    def lines(self):
        """`hhea` and `post` at the place."""
        hhea, post = (varied_lines(self.tables.get(b"MVAR"), self.at, tag, self.tables.get(tag)) for tag in (b"hhea", b"post"))
        return [hhea, slanted(self.tables, self.settings, self.at, post)]


def extremes(drawn):
    """Of drawn glyphs the box of `head`, and what `hhea` has of them: the greatest advance, the least bearings and the extent."""
    with_points = [it for it in drawn if it[1]]
    boxes = [[f(p[axis] for p in it[1]) for f in (min, max) for axis in (0, 1)] for it in with_points]
    box = [f((b[k] for b in boxes), default=0) for k, f in enumerate((min, min, max, max))]
    rights = [min(it[2] - b[2], 32767) for it, b in zip(with_points, boxes)]
    return box, [max((it[2] for it in drawn), default=0), box[0], min(rights, default=0), box[2]]


def directory(data):
    """The tables of a font by itself: the first record of each tag, if its range is in the file."""
    need(len(data) >= 4 and data[:4] in (b"\0\1\0\0", b"true", b"OTTO"), "UnknownKind")
    count, found = number(data, 4), {}
    cut(data, 12, 16 * count)
    for at in range(12, 12 + 16 * count, 16):
        tag, first, size = data[at:at + 4], number(data, at + 8, 4), number(data, at + 12, 4)
        if tag not in found:
            found[tag] = data[first:first + size] if first + size <= len(data) else None
    return {tag: table for tag, table in found.items() if table is not None}
