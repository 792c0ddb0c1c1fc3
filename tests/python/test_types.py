"""The types of the module by mypy: its own text, its examples, and wrong uses, which it has to refuse."""

import pytest
from common import MODULE, examples, run

USES = """
import subsetter

def refused(data: bytes) -> None:
    subsetter.subset(data, 5)  # type: ignore[arg-type]
    subsetter.subset(data, [1], hint=False)  # type: ignore[call-arg]
    subsetter.subset(data, [1], hinting=0)  # type: ignore[arg-type]
    subsetter.embed(data, [1], coordinates={"wght": "650"})  # type: ignore[dict-item]
    subsetter.pdf_font(data, [(36, b"A")])  # type: ignore[list-item]
    subsetter.pdf_font(data, [], codes="cids")  # type: ignore[arg-type]
    subsetter.pdf_font(data, []).parts([1], True)  # type: ignore[misc]
    subsetter.PdfText(data).run([(1, "A", 5)], "up")  # type: ignore[arg-type, list-item]
    subsetter.PdfText(data).shaped("A", [5], [])  # type: ignore[list-item]
    subsetter.PdfText(data).sheet([b"[<0001>]TJ"])  # type: ignore[list-item]
    font: bytes = subsetter.embed(data, [1])  # type: ignore[assignment]
    subsetter.no_such_name  # type: ignore[attr-defined]
"""


@pytest.mark.parametrize("words", [[], ["--python-version", "3.8"], ["--platform", "win32"], ["--platform", "darwin"]], ids=" ".join)
def test_mypy(tmp_path, words):
    paths = [MODULE / "subsetter/__init__.py"]
    for number, text in enumerate([*examples(), USES]):
        paths.append(tmp_path / f"uses{number}.py")
        paths[-1].write_text(text)
    ran = run("/usr/bin/python3", "-m", "mypy", "--strict", "--cache-dir", tmp_path / "cache", *words, *paths, MYPYPATH=MODULE)
    assert ran.returncode == 0, ran.stdout
