"""Memory: what stays during a call, what isn't copied, what comes of a refused request, and that all is given back."""

from common import child, read_rows

FONTS = read_rows()[1]


def test_lists_are_there_until_the_end_of_a_call():
    """Here memory that is given back is written over."""
    assert child("""
        from programs import *
        font, text = bytes.fromhex(%r), made("made.ttf")
        for count in (1, 10, 5000, 80000):
            for coordinates in (None, {"wght": 1, "wdth": 2}):
                found = subsetter.embed(font, [2, 1] * count, coordinates=coordinates)
                print(found.cids == [1, 2] * count and found.widths == [500, 250, 600], end=" ")
                print(subsetter.subset(font, [2, 1] * count, coordinates=coordinates) == found.font, end=" ")
            entries = subsetter.glyphs_of(text, "AH" * count)
            print(entries == [(1, "A"), (9, "H")] * count, end=" ")
            print(subsetter.pdf_font(text, iter(entries), coordinates={"wght": 1}).codes == [1, 2] * count, end=" ")
        font = subsetter.pdf_font(text, [(1, "A"), (9, "H")])
        print(font.sheet() == font.sheet("line") != font.sheet("grid"))
    """ % FONTS["three_advances"].hex(), PYTHONMALLOC="malloc", MALLOC_PERTURB_="165") == "True " * 24 + "True\n"


def test_no_font_is_copied():
    """A font of 40 MB, where the process has 20 MB left."""
    assert child("""
        import resource, subsetter
        font = bytearray(40_000_000)
        subsetter._library()
        size = int(open("/proc/self/statm").read().split()[0]) * 4096
        resource.setrlimit(resource.RLIMIT_AS, (size + 20_000_000,) * 2)
        for buffer in (font, memoryview(font), memoryview(font).toreadonly()):
            try:
                subsetter.embed(buffer, [1])
            except subsetter.Error as error:
                print(type(error).__name__, end=" ")
    """) == 3 * "UnknownKind "


REFUSED = """
    import ctypes, os
    from programs import *
    shim = ctypes.CDLL(None)
    shim.watch.argtypes, shim.refuse.argtypes = [ctypes.c_size_t] * 2, [ctypes.c_size_t]
    shim.met.restype = shim.watched_blocks.restype = ctypes.c_size_t
    path = os.path.realpath(subsetter._library()._name)
    with open("/proc/self/maps") as file:
        ends = [line.split()[0].split("-") for line in file if os.path.realpath(line.split()[-1]) == path]
    shim.watch(min(int(it, 16) for it, _ in ends), max(int(it, 16) for _, it in ends))
    for (name, call), answer in zip(calls(subsetter).items(), wanted):
        refused, number, held = 0, 0, shim.watched_blocks()
        while True:
            number += 1
            shim.refuse(number)
            try:
                found = call()
            except MemoryError as error:
                found = None
                refused += type(error) is subsetter.OutOfMemory and str(error) == "out of memory"
            is_met = shim.met() >= number
            shim.refuse(0)
            if found not in (None, answer) or shim.watched_blocks() != held:
                print(f"{name}: request {number} gives {str(found)[:40]}, and {shim.watched_blocks() - held} blocks are held")
            if not is_met:
                break
        print(f"{name}: {refused > 0} {number > 1} {found == answer == call()}")
    print(answers(subsetter) == wanted)
"""


def test_each_request_that_is_refused(refuser):
    """`OutOfMemory`, or the whole answer; nothing is held afterwards, and the next call is as good as any."""
    *lines, last = child(REFUSED, LD_PRELOAD=refuser, WATCH=1).splitlines()
    assert len(lines) > 7 and {line.partition(": ")[2] for line in lines} == {"True True True"}, lines
    assert last == "True"
