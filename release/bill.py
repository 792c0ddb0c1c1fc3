"""A bill of materials for each package, as SPDX 2.3 in JSON: the package with its sum and its files, and what it is made of."""
import hashlib
import json

from packages import DATE_TEXT, sha256, unpacked

# Where the texts of SPDX put what isn't known.
UNKNOWN = "NOASSERTION"
# What packages are made of besides the sources of this repository: SPDX's name of the licence, and the supplier.
PARTS = {
    "kit": ("Rattle's kit: its library and C files", UNKNOWN, UNKNOWN),
    "rust": ("Rust's standard library", "MIT OR Apache-2.0", "Organization: Debian"),
    "mingw": ("mingw-w64's runtime", "ZPL-2.1", "Organization: Debian"),
    "gcc": ("GCC's runtime library", "GPL-3.0-or-later WITH GCC-exception-3.1", "Organization: Debian"),
    "original": ("subsetter", "MIT OR Apache-2.0", UNKNOWN),
}
# The original crate, of which all packages are a port.
ORIGINAL = "0.2.6"


def entry(key, name, version, licence, **more):
    """A package of SPDX."""
    return {"SPDXID": f"SPDXRef-{key}", "name": name, "versionInfo": version, "downloadLocation": UNKNOWN, "licenseConcluded": licence, "licenseDeclared": licence,
            "copyrightText": UNKNOWN, **more}


def bill(name, data, package, version, licence, parts):
    """The bill of a package: the name of its file and its bytes, its own name and version, the licence, and what is linked into it, as {part: version}."""
    sums = {path: [hashlib.sha1(it).hexdigest(), sha256(it)] for path, it in sorted(unpacked(name, data).items())}
    listed = [{"SPDXID": f"SPDXRef-File-{i}", "fileName": f"./{path}", "licenseConcluded": licence, "copyrightText": UNKNOWN,
               "checksums": [{"algorithm": kind, "checksumValue": value} for kind, value in zip(("SHA1", "SHA256"), both)]} for i, (path, both) in enumerate(sums.items(), 1)]
    # (SPDX's code of a package: the sum of its files' sums, in order)
    code = hashlib.sha1("".join(sorted(both[0] for both in sums.values())).encode()).hexdigest()
    own = entry("Package", package, version, licence, packageFileName=name, filesAnalyzed=True, checksums=[{"algorithm": "SHA256", "checksumValue": sha256(data)}],
                packageVerificationCode={"packageVerificationCodeValue": code})
    parts = {**parts, "original": ORIGINAL}
    made_of = [entry(f"Part-{it}", PARTS[it][0], number, PARTS[it][1], supplier=PARTS[it][2], filesAnalyzed=False) for it, number in parts.items()]
    related = [("SPDXRef-DOCUMENT", "DESCRIBES", "SPDXRef-Package"), *(("SPDXRef-Package", "CONTAINS", it["SPDXID"]) for it in listed)]
    related += [("SPDXRef-Package", "DESCENDANT_OF" if it == "original" else "STATIC_LINK", f"SPDXRef-Part-{it}") for it in parts]
    said = {
        "spdxVersion": "SPDX-2.3", "dataLicense": "CC0-1.0", "SPDXID": "SPDXRef-DOCUMENT", "name": name,
        "documentNamespace": f"https://spdx.org/spdxdocs/{name}-{sha256(data)}",
        "creationInfo": {"created": DATE_TEXT, "creators": ["Tool: release/make"]},
        "packages": [own, *made_of], "files": listed,
        "relationships": [{"spdxElementId": one, "relationshipType": kind, "relatedSpdxElement": other} for one, kind, other in related],
    }
    return json.dumps(said, indent=1, ensure_ascii=False).encode() + b"\n"
