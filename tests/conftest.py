"""Folders and libraries for the tests of the program."""
import pytest
import support


@pytest.fixture
def room(tmp_path):
    """A folder with the font `simple` as `in`."""
    (tmp_path / "in").write_bytes(support.fonts()["simple"])
    return tmp_path


@pytest.fixture
def fonts_room(tmp_path):
    """A folder with all fonts, by their names."""
    for name, font in support.fonts().items():
        (tmp_path / name).write_bytes(font)
    return tmp_path


@pytest.fixture(scope="session")
def refuser(tmp_path_factory):
    """compare/drivers/refuse.c as a library."""
    return support.library("refuse", support.ROOT / "compare" / "drivers" / "refuse.c", tmp_path_factory.mktemp("refuser"))
