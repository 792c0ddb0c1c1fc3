"""The tests run on the C library that Cargo makes of the crate, or on the one that SUBSETTER_LIBRARY names."""

import os
import subprocess
import sys

from common import MODULE, ROOT

# (what hypothesis keeps for itself stays out of the repository)
os.environ["HYPOTHESIS_STORAGE_DIRECTORY"] = str(ROOT / "out/hypothesis")
import hypothesis  # noqa: E402

sys.path.insert(0, str(MODULE))
hypothesis.settings.register_profile("same", derandomize=True, database=None, deadline=None, max_examples=200)
hypothesis.settings.load_profile("same")


def pytest_configure():
    if "SUBSETTER_LIBRARY" not in os.environ:
        folder = ROOT / "bindings/capi"
        subprocess.run(["flock", folder / "Makefile", "make", "-s", "-C", folder], check=True)
        os.environ["SUBSETTER_LIBRARY"] = str(folder / "out/libsubsetter.so")
