"""What HarfBuzz draws of a font at coordinates, in floats, and paths."""
import ctypes
import math


PACKAGES = ["fonts-inter-variable", "python3-freetype", "python3-fonttools", "libharfbuzz0b"]
NEAR_A_HALF = 0.001


class HarfBuzz:
    """A font of HarfBuzz's library, drawn without rounding."""

    def __init__(self, path, index=0):
        lib = self.lib = ctypes.CDLL("libharfbuzz.so.0")
        pointer, number = ctypes.c_void_p, ctypes.c_uint
        for name in ("blob_create_from_file", "face_create", "font_create", "draw_funcs_create"):
            getattr(lib, "hb_" + name).restype = pointer
        lib.hb_face_create.argtypes = [pointer, number]
        lib.hb_font_create.argtypes = [pointer]
        lib.hb_font_set_var_coords_normalized.argtypes = [pointer, ctypes.POINTER(ctypes.c_int), number]
        lib.hb_font_get_glyph_h_advance.argtypes, lib.hb_font_get_glyph_h_advance.restype = [pointer, ctypes.c_uint32], ctypes.c_int
        # (the older name; since 7.0 it is hb_font_draw_glyph)
        lib.hb_font_get_glyph_shape.argtypes = [pointer, ctypes.c_uint32, pointer, pointer]
        self.font = lib.hb_font_create(lib.hb_face_create(lib.hb_blob_create_from_file(path.encode()), index))
        self.path, self.functions = [], lib.hb_draw_funcs_create()
        self.kept = [self.callback(*it) for it in (("move_to", 2), ("line_to", 2), ("quadratic_to", 4), ("cubic_to", 6))]

    def callback(self, name, count):
        """Makes a function of the library add its numbers to the path."""
        kind = ctypes.CFUNCTYPE(None, *[ctypes.c_void_p] * 3, *[ctypes.c_float] * count, ctypes.c_void_p)
        made = kind(lambda _functions, _data, _state, *numbers: self.path.append((name, *numbers[:count])))
        setter = getattr(self.lib, f"hb_draw_funcs_set_{name}_func")
        setter.argtypes = [ctypes.c_void_p, kind, ctypes.c_void_p, ctypes.c_void_p]
        setter(self.functions, made, None, None)
        return made

    def place(self, at):
        """Takes the font at normalized coordinates in 16384ths."""
        self.lib.hb_font_set_var_coords_normalized(self.font, (ctypes.c_int * len(at))(*at), len(at))

    def drawn(self, glyph):
        del self.path[:]
        self.lib.hb_font_get_glyph_shape(self.font, glyph, self.functions, None)
        return list(self.path)

    def advance(self, glyph):
        """(No advance in a file is under 0.)"""
        return max(self.lib.hb_font_get_glyph_h_advance(self.font, glyph), 0)


# ---- paths

def contour_path(points, flags):
    """A contour of TrueType as HarfBuzz draws it: from its first point on the curve, or from the middle of the first two, and closed."""
    ring = []
    for k, (p, is_on) in enumerate(zip(points, flags)):
        (x, y), follows = points[(k + 1) % len(points)], flags[(k + 1) % len(points)]
        ring += [(p, is_on)] + [(((p[0] + x) / 2, (p[1] + y) / 2), 1)] * (not is_on and not follows)
    start = next(k for k, (_, is_on) in enumerate(ring) if is_on)
    ring = ring[start:] + ring[:start + 1]
    path = [("move_to", *ring[0][0])]
    for (before, was_on), (p, is_on) in zip(ring, ring[1:]):
        path += [("line_to", *p) if was_on else ("quadratic_to", *before, *p)] * is_on
    return path


def outline_path(points, ends, flags):
    starts = [0, *(end + 1 for end in ends)]
    return [part for start, end in zip(starts, ends) for part in contour_path(points[start:end + 1], flags[start:end + 1])]


def path_distance(ours, theirs):
    """The greatest distance of two coordinates; none where the paths have other parts."""
    if [part[0] for part in ours] != [part[0] for part in theirs]:
        return None
    return max((abs(a - b) for one, other in zip(ours, theirs) for a, b in zip(one[1:], other[1:])), default=0)


def contours(path, apart=0):
    """The contours of a path. A line back to where a contour began says nothing, and neither does a move without parts."""
    found = []
    for part in path:
        if part[0] == "move_to":
            found.append([part])
        elif found:
            found[-1].append(part)
    for contour in found:
        while contour[-1][0] == "line_to" and all(abs(a - b) <= apart for a, b in zip(contour[-1][1:], contour[0][1:])):
            contour.pop()
    return [contour for contour in found if len(contour) > 1]


# ---- numbers and coordinates

def half_up(v):
    return math.floor(v + 0.5) if isinstance(v, float) else (2 * v.numerator + v.denominator) // (2 * v.denominator)


def is_near_a_half(v):
    return abs(v - math.floor(v) - 0.5) < NEAR_A_HALF


def random_place(axes, rng):
    """A user coordinate in 65536ths for each tag of axes."""
    place = {}
    for tag, low, default, high in axes:
        kind, inside = rng.random(), rng.randint(low, high)
        beyond = rng.choice([low - rng.randint(1, 65536), high + rng.randint(1, 65536)])
        place.setdefault(tag, inside if kind < 0.7 else low if kind < 0.77 else high if kind < 0.84 else default if kind < 0.94 else beyond)
    return list(place.items())


def words_at(place):
    """Coordinates as the program takes them: decimals that are nearest to these 65536ths."""
    return ",".join(f"{tag}=" + f"{value / 65536:.9f}".rstrip("0").rstrip(".") for tag, value in place)
