"""What a call of the Python module takes and holds, in a process of its own under drivers/refuse.c: cost.py CALL PATH INDEX GLYPHS COORDINATES LIMITS

CALL is glyphs, subset, pdf, columns, or one of RUNS, of as many; GLYPHS are numbers and ranges, of `glyphs` characters; COORDINATES are as `wght=650`, or `-`; LIMITS are tokens, depth
and bytes. It prints the nanoseconds of a processor, the bytes that are answered, those that are held at most (the answer twice, as Python copies it), and the
name of the error, or `-`."""
import ctypes
import sys
import time

import build
import fonts

# Items of n glyphs, of one cluster with n, and of a glyph with n characters.
RUNS = {"run": lambda n: [(1, "A", 500, 0, 0, 0)] * n, "cluster": lambda n: [(1, "A", 500, 0, 0, 0)] + [(1, None, 500, 0, 0, 0)] * (n - 1), "characters": lambda n: [(1, "A" * n, 500, 0, 0, 0)]}


def numbers_in(text):
    return [it for part in text.split(",") for it in range(int(part.split("-")[0]), int(part.split("-")[-1]) + 1)]


def main():
    name, path, index, glyphs, at, limits = sys.argv[1:]
    calls, held, numbers = build.Calls(), ctypes.CDLL(None).most_held, numbers_in(glyphs)
    held.restype = ctypes.c_size_t
    data = fonts.content(path)
    more = dict(zip(("tokens", "depth", "most_bytes"), map(int, limits.split(","))))
    if at != "-":
        more["coordinates"] = {word.partition("=")[0]: float(word.partition("=")[2]) for word in at.split(",")}
    text = "".join(chr(it) for it in numbers if not 0xD800 <= it < 0xE000) if name == "glyphs" else ""
    shown = [(glyph, "x") for glyph in numbers]

    def call():
        if name == "glyphs":
            return calls.answer("glyphs_of", data, text, int(index))
        if name in RUNS:
            return calls.module.PdfText(data).run(RUNS[name](len(numbers)))
        if name == "subset":
            return calls.answer("subset", data, numbers, int(index), **more)
        font = calls.answer("pdf_font", data, shown, int(index), rights="held", vertical=name == "columns", **more)
        return font if isinstance(font, str) else font.sheet()

    # (the first one forgets what was held at most before, so the second one says what is held now)
    _, before, start = held(), held(), time.thread_time_ns()
    answer = call()
    took = time.thread_time_ns() - start
    print(took, 0 if isinstance(answer, str) else len(answer), held() - before, answer if isinstance(answer, str) else "-")


if __name__ == "__main__":
    main()
