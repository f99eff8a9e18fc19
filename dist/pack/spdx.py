#!/usr/bin/env python3
"""Writes the SPDX 2.3 document of the release in the folder TREE: both programs, the library for C, the files for other
systems, each library that THIRD-PARTY.md lists, and the packages that balisekit can use.   spdx.py TREE

SOURCE_DATE_EPOCH is the document's time. Each package has a purl. The purl of a library that follows a published crate
is that of the crate, so that scanners find what is known about it.
"""
import json
import os
import re
import sys
import uuid
from datetime import datetime, timezone
from pathlib import Path

NOTHING = "NOASSERTION"
OWN = {"supplier": "Organization: The Balisecheck developers", "copyrightText": "2026 The Balisecheck developers"}
LICENCE = "MIT OR Apache-2.0"
# How a library is used, by THIRD-PARTY.md, and the relationship. Of `none` there is none.
RELATIONS = {"functions": "STATIC_LINK", "inlined": "STATIC_LINK", "start-up code": "STATIC_LINK",
             "dynamic": "DYNAMIC_LINK"}
COLUMNS = "name", "version", "licence", "program", "library"
# Files for other systems that have no code of others.
NO_CODE = ".lib", ".d.mts", ".json"
# The published crates that a library follows, if it is not the one of its name.
CRATES = {"clap": ["clap_builder", "clap_lex@1.1.1"], "fast_float": ["fast-float2"]}
# What balisekit needs to make pictures and pages, and what it uses if it is there.
PYTHON = {"jinja2": "DEPENDENCY_OF", "markupsafe": "OPTIONAL_DEPENDENCY_OF", "openpyxl": "OPTIONAL_DEPENDENCY_OF",
          "defusedxml": "OPTIONAL_DEPENDENCY_OF", "rich": "OPTIONAL_DEPENDENCY_OF", "tomli": "OPTIONAL_DEPENDENCY_OF"}


def listed(page):
    """The rows of THIRD-PARTY.md that list a library."""
    table = re.findall(r"(?m)^\| (\w+)" + r" \| ([^|]+)" * 4 + r" \|$", page)
    return [dict(zip(COLUMNS, cells)) for cells in table if cells[0] != "Library"]


def identifier(name):
    """The SPDX identifier of a package."""
    return f"SPDXRef-{re.sub('[_/]', '-', name)}"


def package(name, purls, **more):
    """A package that stands in no archive of its own."""
    refs = [{"referenceCategory": "PACKAGE-MANAGER", "referenceType": "purl", "referenceLocator": f"pkg:{purl}"}
            for purl in purls]
    return {"SPDXID": identifier(name), "name": name, "supplier": NOTHING, "downloadLocation": NOTHING,
            "filesAnalyzed": False, "licenseConcluded": NOTHING, "licenseDeclared": NOTHING, "copyrightText": NOTHING,
            "externalRefs": refs, **more}


def related(one, kind, other):
    """What a package, or the document, is to another package."""
    return {"spdxElementId": identifier(one), "relationshipType": kind, "relatedSpdxElement": identifier(other)}


def is_library(name):
    """Whether a file is made of the library for C and not of the program."""
    return not re.search(r"(^|/)balisecheck(\.exe)?$|^balisekit$", name)


def product(name, version, about, word=""):
    """The program, a file of the library for C, or balisekit. ABOUT has the checksum of a file by this word."""
    sums = {"checksums": [{"algorithm": "SHA256", "checksumValue": about[word]}]} if word else {}
    return package(name, [f"generic/{name.replace('_', '-')}@{version}"], versionInfo=version, licenseDeclared=LICENCE, **OWN, **sums,
                   primaryPackagePurpose="LIBRARY" if is_library(name) and not name.endswith(".html") else "APPLICATION",
                   sourceInfo=f"commit {about['commit']}, SHA-256 of the sources {about['sources']}, {about['kit']}")


def purls(row, kit):
    """What names a library in a registry, or, if it is in none, what it is called here."""
    if row["version"] == "of the kit":
        return [f"generic/rattle-kit/{row['name']}@{kit}"]
    if row["name"] in ("glibc", "gcc"):
        return [f"generic/{row['name']}" + (f"@{row['version']}" if re.fullmatch(r"[\d.]+", row["version"]) else "")]
    crates = CRATES.get(row["name"], [row["name"]])
    return [f"cargo/{crate}" if "@" in crate else f"cargo/{crate}@{row['version']}" for crate in crates]


def linked(row, about):
    """A library of THIRD-PARTY.md."""
    uses = f"in the program: {row['program']}, in the library for C: {row['library']}"
    follows = "" if "cargo" not in purls(row, "")[0] else "The Rattle kit's port of the crates that the purls name; "
    return package(row["name"], purls(row, re.sub(r"rattle-kit-(\w+).*", r"\1", about["kit"])),
                   versionInfo=row["version"].replace("of the kit", about["kit"]), comment=follows + uses,
                   licenseDeclared=row["licence"].replace("none found", NOTHING), primaryPackagePurpose="LIBRARY")


def is_used(use, name):
    """Whether a file uses a library so. No file for another system has start-up code of others, or glibc but on Linux."""
    system, has_system, _ = name.rpartition("/")
    elsewhere = {"start-up code", "dynamic"} if system != "aarch64-linux" else {"start-up code"}
    return use not in {"none", *(elsewhere if has_system else ())}


def relations(files, rows):
    """What all packages are to each other, and to the document."""
    yield from (related("DOCUMENT", "DESCRIBES", name) for name in (*files, "balisekit"))
    for name in files:
        for row in rows:
            uses = row["library" if is_library(name) else "program"].split(", ")
            yield from (related(name, RELATIONS[use], row["name"]) for use in uses if is_used(use, name))
    yield related("balisekit", "DEPENDS_ON", "balisecheck")
    yield from (related(name, kind, "balisekit") for name, kind in PYTHON.items())


def document(tree):
    """The whole document."""
    about = dict(line.split(" ", 1) for line in (tree / "dist/x86_64-linux/ABOUT").read_text().splitlines())
    rows = listed((tree / "THIRD-PARTY.md").read_text("utf-8"))
    kit = re.search('__version__ = "(.*)"', (tree / "companion/src/balisekit/__init__.py").read_text("utf-8"))[1]
    files = {"balisecheck": "program", "libbalisecheck.a": "archive", "libbalisecheck.so.0": "library"}
    files = {name: word for name, word in files.items() if word in about}
    files.update({name: name for name in about if "/" in name and not name.endswith(NO_CODE)})
    packages = [*(product(name, about["version"], about, word) for name, word in files.items()),
                product("balisekit", kit, about), *(linked(row, about) for row in rows),
                *(package(name, [f"pypi/{name}"], comment="not in the release") for name in PYTHON)]
    connected = [*relations(files, rows)]
    time = datetime.fromtimestamp(int(os.environ["SOURCE_DATE_EPOCH"]), timezone.utc).strftime("%Y-%m-%dT%H:%M:%SZ")
    text = json.dumps([packages, connected, time])
    return {
        "spdxVersion": "SPDX-2.3", "dataLicense": "CC0-1.0", "SPDXID": "SPDXRef-DOCUMENT",
        "name": f"balisecheck-{about['version']}", "documentNamespace": uuid.uuid5(uuid.NAMESPACE_OID, text).urn,
        "creationInfo": {"created": time, "creators": ["Tool: balisecheck-spdx.py", OWN["supplier"]]},
        "packages": packages, "relationships": connected,
    }


if __name__ == "__main__":
    print(json.dumps(document(Path(sys.argv[1])), indent=1))
