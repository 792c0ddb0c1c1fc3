"""What the programs of test_memory.py and test_library.py begin with: fonts, and one answer of each kind of call."""

import subsetter
from common import made


def parts(font):
    return font.program, font.codes, font.widths, font.to_unicode, font.encoding, font.cid_set, font.objects(4), font.codes and font.sheet("grid"), font.exact_widths, font.parts(range(1, font.part_count + 1), compress=True)


def runs(module):
    with module.PdfText(made("made.ttf")) as text:
        return text.run([(1, "A"), (5, "fi"), (9, "e\u0301"), (7, None, 0, 0, -9, 99)]), text.codes, parts(text.font(cid_set=True))


def calls(module):
    return {
        "a subset": lambda: module.subset(made("made.ttf"), [1, 5]),
        "a subset of CFF": lambda: module.subset(made("made.otf"), [1, 5]),
        "an embedded font": lambda: module.embed(made("made.ttf"), [1, 5], names=False),
        "an embedded font at coordinates": lambda: module.embed(made("made_variable.ttf"), [1, 5], coordinates={"wght": 650}),
        "a subset of CFF2": lambda: module.subset(made("made_cff2.otf"), [1, 2], coordinates={}),
        "glyphs of a text": lambda: module.glyphs_of(made("made.ttf"), "AH\ufb01"),
        "codes": lambda: module.codes_of([(1, "A"), (5, "fi")]),
        "advances": lambda: module.advances(made("made_variable.ttf"), [1, 5], coordinates={"wght": 650}),
        "runs of a text": lambda: runs(module),
        "a font for a PDF": lambda: parts(module.pdf_font(made("made.ttf"), [(1, "A"), (5, "fi"), (1, "a")], cid_set=True, codes="each_text")),
        "a vertical font for a PDF": lambda: parts(module.pdf_font(made("made.otf"), [(1, "A"), (5, "fi")], vertical=True, rights="held")),
    }


def answers(module):
    return [call() for call in calls(module).values()]


wanted = answers(subsetter)
