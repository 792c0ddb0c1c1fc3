"""Builds the wheel and the sdist of this folder, with Cargo and Python alone (PEP 517): `pip install ./bindings/python`

The wheel has the module and the C library that Cargo makes of the package `subsetter-capi`, for this machine, or for the
target of Rust that the setting `target` names (`pip wheel --config-settings target=x86_64-pc-windows-gnu`). The sources of that
package and of the crate are beside this folder in a clone, and in `crates` in an sdist. No date and no name of the machine is in
what is built.
"""
import base64
import gzip
import hashlib
import io
import os
import re
import shutil
import subprocess
import sys
import sysconfig
import tarfile
import tempfile
import zipfile

HERE = os.path.dirname(os.path.abspath(__file__))
# The date of every file in a package: 1980-01-01, the first that a zip can say.
DATE, ZIP_DATE = 315532800, (1980, 1, 1, 0, 0, 0)
NAME, SUMMARY = "subsetter", "Fonts cut down to some of their glyphs, for embedding in PDF"
# The platform's tag for each target that the setting names; another has to be added here.
TAGS = {
    "x86_64-unknown-linux-gnu": "linux_x86_64", "aarch64-unknown-linux-gnu": "linux_aarch64", "i686-unknown-linux-gnu": "linux_i686",
    "s390x-unknown-linux-gnu": "linux_s390x", "x86_64-pc-windows-gnu": "win_amd64", "x86_64-pc-windows-msvc": "win_amd64",
}
# What Cargo wants of the two packages.
CRATES = {"capi": ["Cargo.toml", "Cargo.lock", "build.rs", "src"], "rust": ["Cargo.toml", "README.md", "src"]}


# ---- the sources


def read(*path):
    with open(os.path.join(*path), "rb") as file:
        return file.read()


def crates():
    """The folder that has the two packages of Rust: in an sdist `crates`, in a clone the one around this folder."""
    for folder in (os.path.join(HERE, "crates"), os.path.dirname(HERE)):
        if os.path.isfile(os.path.join(folder, "capi", "Cargo.toml")):
            return folder
    raise SystemExit(f"subsetter: the packages capi and rust are neither in {HERE}/crates nor beside {HERE}")


def licences():
    """LICENSE and NOTICE, from this folder in an sdist, from the repository's in a clone."""
    top = HERE if os.path.isfile(os.path.join(HERE, "LICENSE")) else os.path.dirname(os.path.dirname(HERE))
    return {name: read(top, name) for name in ("LICENSE", "NOTICE")}


def licence():
    """The licence as an SPDX expression, from the manifest of the C library."""
    return re.search(r'^license = "(.*)"$', read(crates(), "capi", "Cargo.toml").decode(), re.M)[1]


def version():
    """The module's version."""
    text = read(HERE, NAME, "__init__.py").decode()
    return re.search(r'^__version__ = "(\d+\.\d+\.\d+)"$', text, re.M)[1]


def module():
    """The files of the module."""
    names = sorted(it for it in os.listdir(os.path.join(HERE, NAME)) if it.endswith(".py") or it == "py.typed")
    return {f"{NAME}/{name}": read(HERE, NAME, name) for name in names}


def below(folder, name):
    """A file, or the files below a folder, by their paths."""
    whole = os.path.join(folder, name)
    if os.path.isfile(whole):
        return {name: read(whole)}
    found = {}
    for at, _, names in os.walk(whole):
        for path in (os.path.join(at, it) for it in names):
            found[os.path.relpath(path, folder).replace(os.sep, "/")] = read(path)
    return found


def metadata():
    head = {
        "Metadata-Version": "2.4", "Name": NAME, "Version": version(), "Summary": SUMMARY, "License-Expression": licence(),
        "Requires-Python": ">=3.8", "Description-Content-Type": "text/markdown",
    }
    lines = "".join(f"{name}: {value}\n" for name, value in head.items())
    return lines.encode() + b"License-File: LICENSE\nLicense-File: NOTICE\n\n" + read(HERE, "README.md")


# ---- the library


def library_name(target):
    """The file that Cargo makes for a target, or for this machine."""
    system = target or {"win32": "windows", "darwin": "apple"}.get(sys.platform, "")
    return "subsetter.dll" if "windows" in system else "libsubsetter.dylib" if "apple" in system else "libsubsetter.so"


def tag(target):
    """The tag of the platform."""
    if target and target not in TAGS:
        raise SystemExit(f"subsetter: no tag is known for the target {target}")
    return TAGS[target] if target else re.sub(r"\W", "_", sysconfig.get_platform())


def library(target):
    """The library's name and bytes, from Cargo."""
    cargo, folder = shutil.which("cargo"), crates()
    if not cargo:
        raise SystemExit("subsetter: there is no cargo on the PATH, and the library is built by it (Rust 1.63 or later)")
    # (no path of this machine is in the library; in this variable, whose separator is no blank, a path may have one)
    given = os.environ.get("CARGO_ENCODED_RUSTFLAGS", "\x1f".join(os.environ.get("RUSTFLAGS", "").split()))
    flags = f"{given}\x1f--remap-path-prefix={folder}=.".lstrip("\x1f")
    with tempfile.TemporaryDirectory(prefix="subsetter-") as room:
        words = [cargo, "build", "--release", "--offline", "--locked", "--manifest-path", os.path.join(folder, "capi", "Cargo.toml")]
        words += ["--target-dir", room, *(["--target", target] if target else [])]
        subprocess.run(words, check=True, env={**os.environ, "CARGO_ENCODED_RUSTFLAGS": flags})
        name = library_name(target)
        return name, read(room, target, "release", name) if target else read(room, "release", name)


# ---- packages


def zipped(files, programs):
    made = io.BytesIO()
    with zipfile.ZipFile(made, "w", zipfile.ZIP_DEFLATED) as out:
        for path, data in files.items():
            head = zipfile.ZipInfo(path, ZIP_DATE)
            head.create_system, head.compress_type = 3, zipfile.ZIP_DEFLATED
            head.external_attr = (0o100755 if path in programs else 0o100644) << 16
            out.writestr(head, data)
    return made.getvalue()


def recorded(path, data):
    """A file's line of a wheel's RECORD."""
    sum_of = base64.urlsafe_b64encode(hashlib.sha256(data).digest()).rstrip(b"=").decode()
    return f"{path},sha256={sum_of},{len(data)}\n"


def information(platforms):
    """The folder of a wheel that describes it, without RECORD, for platforms by their tags."""
    said = "Wheel-Version: 1.0\nGenerator: subsetter_build\nRoot-Is-Purelib: false\n" + "".join(f"Tag: py3-none-{it}\n" for it in platforms)
    return {**{f"licenses/{name}": data for name, data in licences().items()}, "METADATA": metadata(), "WHEEL": said.encode()}


def setting(settings):
    return (settings or {}).get("target", "")


def wheel(name, data, platforms):
    """The wheel with a library, by its name in the module, for platforms by their tags: its name and its bytes."""
    info = f"{NAME}-{version()}.dist-info"
    files = {**module(), f"{NAME}/{name}": data, **{f"{info}/{path}": it for path, it in information(platforms).items()}}
    record = "".join(recorded(path, it) for path, it in files.items()) + f"{info}/RECORD,,\n"
    files[f"{info}/RECORD"] = record.encode()
    return f"{NAME}-{version()}-py3-none-{'.'.join(platforms)}.whl", zipped(files, [f"{NAME}/{name}"])


def build_wheel(wheel_directory, config_settings=None, metadata_directory=None):
    target = setting(config_settings)
    platform = tag(target)
    name, made = wheel(*library(target), [platform])
    with open(os.path.join(wheel_directory, name), "wb") as file:
        file.write(made)
    return name


def prepare_metadata_for_build_wheel(metadata_directory, config_settings=None):
    folder = f"{NAME}-{version()}.dist-info"
    for path, data in information([tag(setting(config_settings))]).items():
        whole = os.path.join(metadata_directory, folder, *path.split("/"))
        os.makedirs(os.path.dirname(whole), exist_ok=True)
        with open(whole, "wb") as file:
            file.write(data)
    return folder


def build_sdist(sdist_directory, config_settings=None):
    files = {**module(), **licences(), "PKG-INFO": metadata()}
    for name in ("README.md", "pyproject.toml", "subsetter_build.py"):
        files[name] = read(HERE, name)
    for package, names in CRATES.items():
        folder = os.path.join(crates(), package)
        for name in names:
            files.update({f"crates/{package}/{path}": data for path, data in below(folder, name).items()})
    front, made, packed = f"{NAME}-{version()}", io.BytesIO(), io.BytesIO()
    with tarfile.open(fileobj=made, mode="w", format=tarfile.PAX_FORMAT) as tar:
        for path in sorted(files):
            head = tarfile.TarInfo(f"{front}/{path}")
            head.mtime, head.mode, head.size = DATE, 0o644, len(files[path])
            tar.addfile(head, io.BytesIO(files[path]))
    with gzip.GzipFile(filename="", mode="wb", fileobj=packed, mtime=0) as out:
        out.write(made.getvalue())
    with open(os.path.join(sdist_directory, f"{front}.tar.gz"), "wb") as file:
        file.write(packed.getvalue())
    return f"{front}.tar.gz"


def get_requires_for_build_wheel(config_settings=None):
    return []


def get_requires_for_build_sdist(config_settings=None):
    return []
