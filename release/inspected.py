"""What is in the release files: `look(folder, skip, version, crate_version)` gives what is wrong, and how many packed files it saw.

It asks nothing of what made them. What users notice when they install a package, release/test notices; dates and rights it sees by making all twice.
"""
import hashlib
import io
import json
import os
import re
import socket
import subprocess
import tarfile
import tempfile
import zipfile

from kit import ROOT, read, text_of

# The targets that the kit compiles for, and what readelf calls each processor of Linux.
TRIPLES = {"x86_64": "x86_64-unknown-linux-gnu", "aarch64": "aarch64-unknown-linux-gnu"}
MACHINES = {"x86_64": "Advanced Micro Devices X86-64", "aarch64": "AArch64", "s390x": "IBM S/390"}
LICENCE, ORIGINAL = "MIT OR Apache-2.0", "0.2.6"
# What a DLL may need: libraries that every Windows has.
OF_WINDOWS = {"KERNEL32.dll", "msvcrt.dll", "ntdll.dll", "bcrypt.dll", "ADVAPI32.dll", "USERENV.dll", "WS2_32.dll", "api-ms-win-core-synch-l1-2-0.dll"}
# What is linked in, by a part of a package's name; a package has the first that fits.
WINDOWS = {"rust": "1.63.0", "mingw": "10.0.0", "gcc": "12.2.0"}
LINKED = [("windows", WINDOWS), ("win_amd64", WINDOWS), ("s390x", {"rust": "1.63.0"}), (".tgz", {"rust": "1.63.0"}), ("native", {"kit": "KIT"}),
          (".crate", {}), ("", {"kit": "KIT"})]
# What a package has beside the program, and the files in crates/subset_font.
OF_PROGRAM = {
    "share/man/man1/subset_font.1": "subset_font.1",
    "share/bash-completion/completions/subset_font": "completions/subset_font.bash",
    "share/zsh/site-functions/_subset_font": "completions/_subset_font",
    "share/fish/vendor_completions.d/subset_font.fish": "completions/subset_font.fish",
}


def said(data, *words):
    """What a program of binutils prints of these bytes."""
    with tempfile.NamedTemporaryFile(prefix="look-") as file:
        file.write(data)
        file.flush()
        return subprocess.run([*words, file.name], capture_output=True, text=True, errors="replace", check=False).stdout


def git(*words):
    return subprocess.run(["git", "-C", ROOT, *words], capture_output=True, text=True, check=True).stdout.strip()


def calls():
    """The calls of the header."""
    text = re.sub(r"static inline[^{;]*|/\*.*?\*/", "", text_of(ROOT, "bindings", "c", "subsetter.h"), flags=re.S)
    return {*re.findall(r"^(?:uint32_t|void) (subsetter_\w+)\(", text, re.M)}


def shown(data, *words):
    """The names that a library shows."""
    return {it.split()[7] for it in said(data, "readelf", "-W", *words).split("\n") if re.search(r"\b(GLOBAL|WEAK)\b.*DEFAULT\s+\d+ ", it)}


def glibc(data):
    """The oldest glibc that a library or a program runs on, as [2, 17]; [0, 0] where no symbol has a version."""
    found = re.findall(r"@GLIBC_(\d+)\.(\d+)", said(data, "readelf", "-W", "--dyn-syms"))
    return max(([int(it) for it in one] for one in found), default=[0, 0])


class Looker:
    def __init__(self, folder, skip, version, crate_version):
        self.skip, self.version, self.crate_version, self.wrong, self.packed = skip, version, crate_version, [], {}
        self.targets, self.data = [it for it in TRIPLES if it not in skip], {}
        for name in sorted(os.listdir(folder)):
            self.data[name] = read(folder, name)

    def demand(self, is_so, what):
        if not is_so:
            self.wrong.append(what)

    # ---- the files as a whole

    def names(self):
        """The names of all packages; a wheel's tags are looked at below."""
        front = f"subsetter-{self.version}"
        wanted = [f"subsetter-{self.crate_version}.crate", f"subsetter-native-{self.version}.crate"]
        wanted += [f"{front}-linux-{it}.tar.gz" for it in [*self.targets, "s390x"] if it not in self.skip]
        wanted += [f"{front}-windows-x86_64.zip", f"{front}-py3-none-win_amd64.whl"] * ("windows" not in self.skip)
        wanted += [f"subsetter-proved-{self.version}.tgz"] * ("js" not in self.skip)
        wheels = [it for it in self.data if re.fullmatch(rf"{front}-py3-none-manylinux.*_({'|'.join(self.targets)})\.whl", it)]
        whole = sorted([*wanted, *wheels, *(f"{it}.spdx.json" for it in wanted + wheels), "PROVED", "SHA256SUMS"])
        self.demand(whole == [*self.data] and len(wheels) == len(self.targets), f"the files are {[*self.data]}, and they should be {whole}")
        sums = "".join(f"{hashlib.sha256(data).hexdigest()}  {it}\n" for it, data in self.data.items() if it != "SHA256SUMS")
        self.demand(self.data["SHA256SUMS"].decode() == sums, "SHA256SUMS isn't the sums of the other files")
        return wanted + wheels

    def proved(self):
        """PROVED: the version, the commit, the kit of the file KIT, and a line for each crate and each target."""
        lines = self.data["PROVED"].decode().split("\n")
        head = [f"subsetter {self.version}", f"commit {git('rev-parse', 'HEAD')}" + " and changes that no commit holds" * bool(git("status", "--porcelain", "-uno"))]
        self.demand(lines[:2] == head, f"PROVED begins with {lines[:2]}, and not {head}")
        logic = re.search(r"rattle-kit-\S+ (logic \w+)", text_of(ROOT, "KIT"))[1]
        self.demand(re.fullmatch(rf"rattle-kit-\S+ {logic}", lines[2]), f"PROVED has the kit {lines[2]}, and KIT {logic}")
        found = dict(it.partition(": logic=")[::2] for it in lines if ": logic=" in it)
        if "kit" in self.skip:
            return lines[2]
        for name, triple in [*((f"subsetter_c, compiled for {it}", TRIPLES[it]) for it in self.targets), ("subset_font, compiled for x86_64", TRIPLES["x86_64"])]:
            line = found.pop(name, "")
            self.demand(line.startswith("proved ") and f" target={triple} " in line and " cpu=" not in line, f"PROVED: {name}: {line!r}")
        self.demand(all(it.startswith("proved ") for it in found.values()) and ("subsetter" in found) == ("lines" not in self.skip), f"PROVED has {sorted(found)}")
        return lines[2]

    def bill(self, name, kit):
        """The bill of a package: its version, licence and sum, exactly its files with their sums, and what is linked in."""
        bill = json.loads(self.data[f"{name}.spdx.json"])
        packages = {it["SPDXID"]: it for it in bill["packages"]}
        package, kinds = packages["SPDXRef-Package"], ("STATIC_LINK", "DESCENDANT_OF")
        linked = {it["relatedSpdxElement"]: packages[it["relatedSpdxElement"]]["versionInfo"] for it in bill["relationships"] if it["relationshipType"] in kinds}
        found = [bill["spdxVersion"], package["packageFileName"], package["versionInfo"], package["licenseDeclared"], package["checksums"][0]["checksumValue"], linked,
                 {it["fileName"]: [one["checksumValue"] for one in it["checksums"]] for it in bill["files"]}]
        parts = {**next(it for part, it in LINKED if part in name), "original": ORIGINAL}
        number = self.crate_version if name == f"subsetter-{self.crate_version}.crate" else self.version
        wanted = ["SPDX-2.3", name, number, LICENCE, hashlib.sha256(self.data[name]).hexdigest(), {f"SPDXRef-Part-{key}": kit if it == "KIT" else it for key, it in parts.items()},
                  {f"./{path}": [hashlib.sha1(it).hexdigest(), hashlib.sha256(it).hexdigest()] for path, it in self.packed[name].items()}]
        self.demand(found == wanted, f"{name}.spdx.json: {[it for it in zip(found, wanted) if it[0] != it[1]]}"[:1000])

    # ---- packages

    def files(self, name):
        """The files of a package by their paths, a link as its text."""
        data = io.BytesIO(self.data[name])
        if name.endswith((".whl", ".zip")):
            with zipfile.ZipFile(data) as file:
                found = {it: file.read(it) for it in file.namelist()}
        else:
            with tarfile.open(fileobj=data) as tar:
                self.demand({(it.uid, it.gid, it.uname, it.gname) for it in tar} == {(0, 0, "", "")} or name.endswith(".tgz"), f"{name}: it has other owners")
                found = {it.name: it.linkname if it.issym() else tar.extractfile(it).read() for it in tar if not it.isdir()}
        self.packed[name] = {path: it for path, it in found.items() if isinstance(it, bytes)}
        return found

    def package(self, name, front, sources, more, words):
        """A package: the files of the repository that it has as they are (`sources`), further ones (`more`), and what texts say (`words`)."""
        found = {path.removeprefix(front): it for path, it in self.files(name).items()}
        self.demand({*found} == {*sources, *more}, f"{name}: {sorted({*found} ^ {*sources, *more})} is missing or too much")
        other = [path for path, source in sources.items() if found.get(path) != read(ROOT, source)]
        self.demand(not other, f"{name}: other than the repository's: {other}")
        for path, texts in words.items():
            text = found.get(path, b"").decode()
            self.demand(all(it in text for it in texts) and not re.search(r"@\w+@", text), f"{name}: {path} lacks one of {texts}, or has a word left")
            for it in re.findall(r"\b(?:bin|include|lib|share)/[\w./-]*\w", text) if path == "README.md" and "include/subsetter.h" in found else ():
                self.demand(any(there == it or there.startswith(f"{it}/") for there in found), f"{name}: README.md names {it}, which isn't there")
        return found

    def linux(self, target):
        """The package for C; it gives both libraries."""
        name, full, is_proved = f"subsetter-{self.version}-linux-{target}", "libsubsetter.so.0.3.0", target in TRIPLES
        sources = {"include/subsetter.h": "bindings/c/subsetter.h", **{f"share/doc/subsetter/{it}": it for it in ("LICENSE", "NOTICE")}}
        programs = ["bin/subset_font"] * (target == "x86_64")
        sources.update({path: f"crates/subset_font/{it}" for path, it in OF_PROGRAM.items() if programs})
        links = {"lib/libsubsetter.so.0": full, "lib/libsubsetter.so": "libsubsetter.so.0"}
        texts = {"lib/pkgconfig/subsetter.pc": [f"\nVersion: {self.version}\n", f"\nLicense: {LICENCE}\n"], **{f"lib/cmake/subsetter/subsetter-config{it}.cmake": [] for it in ("", "-version")},
                 "README.md": [f"# subsetter {self.version} for Linux on {target}\n", f"The licence is {LICENCE}: ", "The file PROVED" if is_proved else "That is proved"]}
        found = self.package(f"{name}.tar.gz", f"{name}/", sources, {*links, *texts, "lib/libsubsetter.a", f"lib/{full}", *programs}, texts)
        self.demand({path: it for path, it in found.items() if isinstance(it, str)} == links, f"{name}: its links")
        shared, static, *program = (found.get(it, b"") for it in (f"lib/{full}", "lib/libsubsetter.a", *programs))
        dynamic = said(shared, "readelf", "-Wd")
        needed = {*re.findall(r"NEEDED.*\[(.*)\]", dynamic)} - (set() if is_proved else {"libgcc_s.so.1", "ld64.so.1"})
        self.demand("[libsubsetter.so.0]" in dynamic and needed == {"libc.so.6"}, f"{name}: its soname, or it needs {sorted(needed)}")
        self.demand(shown(shared, "--dyn-syms") == shown(static, "-s") == calls(), f"{name}: its libraries show other names than the header's")
        machines = {it for data in (shared, static, *program) for it in re.findall(r"Machine:\s+(.*)", said(data, "readelf", "-Wh"))}
        self.demand(machines == {MACHINES[target]}, f"{name}: it is for {machines}")
        needs = re.findall(r"\bfor glibc (\d+\.\d+) or later", found.get("README.md", b"").decode())
        self.demand(needs == [".".join(map(str, glibc(it))) for it in (shared, *program)], f"{name}: README.md says that glibc {needs} is needed")
        return shared, static

    def windows(self):
        """The package for C on Windows; it gives the DLL, which has no date, and needs nothing but Windows."""
        name = f"subsetter-{self.version}-windows-x86_64"
        words = {"README.md": [f"# subsetter {self.version} for Windows on x86_64\n", f"The licence is {LICENCE} (LICENSE, NOTICE)."]}
        found = self.package(f"{name}.zip", f"{name}/", {"include/subsetter.h": "bindings/c/subsetter.h", "LICENSE": "LICENSE", "NOTICE": "NOTICE"},
                             {"README.md", "bin/subsetter.dll", "lib/libsubsetter.dll.a", "lib/libsubsetter.a"}, words)
        data, static = found.get("bin/subsetter.dll", b""), said(found.get("lib/libsubsetter.a", b""), "objdump", "-h")
        self.demand(" .text" in static and " .debug" not in static, f"{name}: its static library has no code, or what a debugger reads")
        at, text = int.from_bytes(data[60:64], "little"), said(data, "objdump", "-p")
        self.demand(data[at:at + 6] == b"PE\0\0\x64\x86" and data[at + 8:at + 12] == bytes(4), f"{name}: its DLL isn't one for x86-64, or has a date")
        needed = {*re.findall(r"DLL Name: (\S+)", text)}
        names = {*re.findall(r"\b(subsetter_\w+)$", text.partition("[Ordinal/Name Pointer] Table")[2], re.M)}
        self.demand(needed and needed <= OF_WINDOWS and names == calls(), f"{name}: its DLL needs {sorted(needed)}, and shows {sorted(names ^ calls())}")
        return data

    def wheel(self, end, library, name):
        """The wheel with a library, whose tags promise no older glibc than it needs."""
        whole, info = next(it for it in self.data if it.endswith(f"_{end}.whl")), f"subsetter-{self.version}.dist-info"
        sources = {**{f"subsetter/{it}": f"bindings/python/subsetter/{it}" for it in ("__init__.py", "py.typed")}, **{f"{info}/licenses/{it}": it for it in ("LICENSE", "NOTICE")}}
        found = self.package(whole, "", sources, {f"subsetter/{name}", *(f"{info}/{it}" for it in ("METADATA", "WHEEL", "RECORD"))}, {})
        self.demand(found.get(f"subsetter/{name}") == library, f"{whole}: its library isn't that for C")
        tags = re.findall(r"^Tag: py3-none-(.*)$", found[f"{info}/WHEEL"].decode(), re.M)
        self.demand(tags and tags == whole[:-4].split("-")[-1].split("."), f"{whole}: its tags are {tags}")
        for tag in tags if end != "amd64" else ():
            promised = {"1": [2, 5], "2010": [2, 12], "2014": [2, 17]}.get(tag[9:].split("_")[0]) or [int(it) for it in tag.split("_")[1:3]]
            self.demand([0, 0] < glibc(library) <= promised <= [2, 31], f"{whole}: {tag}, and the library needs glibc {glibc(library)}")

    def crate(self, package, version, folder, own_files, more, words):
        """A crate: its manifest and sources as they are in a folder of the bindings."""
        at = os.path.join(ROOT, "bindings", folder)
        code = [os.path.relpath(os.path.join(here, it), at) for here, _, names in os.walk(os.path.join(at, "src")) for it in names]
        sources = {"LICENSE": "LICENSE", "NOTICE": "NOTICE", **{it: f"bindings/{folder}/{it}" for it in [*own_files, "Cargo.toml", *code]}}
        manifest = [f'\nname = "{package}"\nversion = "{version}"\n', f'\nlicense = "{LICENCE}"\n']
        return self.package(f"{package}-{version}.crate", f"{package}-{version}/", sources, more, {"Cargo.toml": manifest, "README.md": words})

    def js(self):
        name = f"subsetter-proved-{self.version}.tgz"
        sources = {**{f"package/{it}": f"bindings/js/{it}" for it in ("README.md", "subsetter.d.mts", "subsetter.mjs")}, **{f"package/{it}": it for it in ("LICENSE", "NOTICE")}}
        found = self.package(name, "", sources, {"package/package.json", "package/subsetter.wasm"}, {"package/package.json": [f'"version": "{self.version}"', f'"license": "{LICENCE}"']})
        self.demand(found.get("package/subsetter.wasm", b"")[:8] == b"\0asm\x01\0\0\0", f"{name}: subsetter.wasm is no module")

    def traces(self):
        """Nothing that is packed names a place of this machine, or who worked on it."""
        places = [it for it in (ROOT, os.path.expanduser("~") + "/", tempfile.gettempdir() + "/", "/opt/rattle", "/placeholder", socket.gethostname()) if len(it) > 3]
        found = [f"{name}: {path} names {it}" for name, files in self.packed.items() for path, data in files.items() for it in places if it.encode() in data]
        self.demand(not found, f"traces of this machine: {found[:5]}")


def look(folder, skip, version, crate_version):
    """What is wrong with the files of a folder, as a list of texts, and how many files it looked at."""
    it = Looker(folder, skip, version, crate_version)
    names, kit, native = it.names(), it.proved(), {}
    if it.wrong:
        return it.wrong, 0
    for target in it.targets:
        shared, static = it.linux(target)
        native[f"native/{TRIPLES[target]}/libsubsetter.a"] = static
        it.wheel(target, shared, "libsubsetter.so")
    if "s390x" not in skip:
        it.linux("s390x")
    if "windows" not in skip:
        it.wheel("amd64", it.windows(), "subsetter.dll")
    it.crate("subsetter", crate_version, "rust", ["README.md"], set(), [f"\n`{LICENCE}` (LICENSE, NOTICE).\n"])
    words = [f"# subsetter-native {version}\n", f'path = "subsetter-native-{version}"', f"The licence is {LICENCE} (LICENSE, NOTICE)."]
    found = it.crate("subsetter-native", version, "rust-native", ["build.rs"], {"README.md", *native}, words)
    it.demand({path: found.get(path) for path in native} == native, "subsetter-native: a library isn't that for C")
    if "js" not in skip:
        it.js()
    for name in names:
        it.bill(name, kit)
    it.traces()
    return it.wrong, sum(map(len, it.packed.values()))
