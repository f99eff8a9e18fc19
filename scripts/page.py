#!/usr/bin/env python3
"""Writes the page for browsers, one file without a request:   page.py MODULE OUT

MODULE is balisecheck.mjs of scripts/targets. The other parts are in native/page. What the page shows in words comes
from docs/assurance/trace.csv, whose rows also make the schemas, from docs/findings.md (by present/findings.json), and
from the tables of docs/refusals.md and docs/library.md. The same sources make the same bytes.
"""
import base64
import hashlib
import json
import re
import sys
from pathlib import Path

from variables.table import TOP, Part, layouts_of, read_rows

PARTS = TOP / "native/page"
WORKER = "lines.js", "looks.js", "rows.js", "table.js", "groups.js", "cells.js", "tables.js", "worker.js"
SCRIPTS = ("kinds.js", "words.js", "bits.js", "exports.js", "view.js", "records.js", "document.js", "lists.js",
           "tableview.js", "looks.js", "zip.js", "workbook.js", "main.js")
FINDING = "name", "says", "matters", "cause", "remedy"
IMPORT = re.compile(r'(?m)^import .* from "\./[\w.]+";\n')
EXPORT = re.compile(r"(?m)^export (?=(?:const|(?:async )?function\*?|class) )")
DEFINED = re.compile(r"(?m)^(?:async )?(?:const|let|function\*?|class) (\w+)")
LARGEST = 1_200_000  # bytes
# On a page that was opened from a disk Chromium starts no worker that is a module. The page waits for `ready`.
WORKER_FORM = """"use strict";
(async () => {{
{}
}})().catch((error) => self.postMessage({{ broken: String(error.message) }}));
"""
NEEDS = "needs WebAssembly with 64-bit memory: Chromium, Chrome or Edge 133, Firefox 134, or a later version"


# ---- what the page shows in words


def row_of(row):
    """A row of the table, as words.js and bits.js read it."""
    name, numbers = row.condition
    return {"variable": row.variable, "bits": row.width, "keys": row.keys, "unit": row.unit, "meaning": row.meaning,
            "when": [name, numbers], "spans": row.spans}


def node_of(node):
    """A row or a part of a layout."""
    if not isinstance(node, Part):
        return row_of(node)
    return {"key": node.key, "count": node.count and row_of(node.count), "least": node.least,
            "nodes": [node_of(it) for it in node.nodes]}


def layouts():
    """Each layout with its title, and the unit of each Q_SCALE in decimetres."""
    rows = read_rows()
    titles = {it.layouts: it.meaning for it in rows if not it.variable}
    found = {name: {"title": titles[name], "nodes": [node_of(it) for it in nodes]}
             for name, nodes in layouts_of(rows).items()}
    scale = next(it for it in rows if it.variable == "Q_SCALE")
    units = [words.split() for _, _, words in scale.spans]
    return found, [int(size) * {"cm": 1, "m": 100}[unit] // 10 for size, unit in units]


def plain(text):
    """A cell of a table without its marks of links and code."""
    return re.sub(r"\[([^]]*)\]\([^)]*\)", r"\1", text).replace("`", "")


def cells(page, heading):
    """The rows of the table of a page below this heading."""
    section = (TOP / page).read_text("utf-8").split(f"\n{heading}\n", 1)[1].split("\n## ")[0]
    rows = [re.split(r"(?<!\\) \| ", line.strip("| ")) for line in section.splitlines() if line.startswith("| ")]
    return [row for row in rows if len(row) > 1 and not set(row[0]) <= {"-", " "}][1:]


def meanings(name, known):
    """What each of these words for a reason means, by the table of a section: without its example."""
    rows = [[plain(it) for it in row] for row in cells("docs/refusals.md", f"## {name}") if len(row) == 3]
    found = {row[0].split(" at ")[0]: [row[1].split(", here ")[0], row[2]] for row in rows}
    return {reason: found[reason] for reason in known if reason in found}


def forms():
    """What each reason means for which a document is refused as a whole, or a group."""
    form = re.compile(r"refused: (?:form |group 0: )?(not JSON|kind|missing key|unknown key|count|aspects)(?: at .*)?")
    rows = [[plain(it) for it in row] for row in cells("docs/refusals.md", "## Documents")]
    return {it[1]: meaning for it, meaning in ((form.fullmatch(row[0]), row[1]) for row in rows) if it}


def data_of(module):
    """All data of the page."""
    found, scales = layouts()
    words = {row[0]: plain(row[2]) for row in cells("docs/library.md", "## Records") if row[2:] and row[2] != "|"}
    source = json.loads((TOP / "companion/src/balisekit/present/findings.json").read_text("utf-8"))
    return {"version": (TOP / "VERSION").read_text().strip(), "module": hashlib.sha256(module).hexdigest(),
            "layouts": found, "scales": scales, "reasons": words,
            "telegrams": meanings("Telegrams", words.values()), "messages": meanings("Messages", words.values()),
            "forms": forms(), "findings": {f"F{number}": [it[key] for key in FINDING] for number, it in source.items()},
            "example": (TOP / "examples/check/many-findings.json").read_text("utf-8")}


# ---- the file


def part(name):
    """A part of the page."""
    return (PARTS / name).read_text("utf-8")


def joined(modules):
    """Modules in one scope, in which each name is defined once."""
    text = "".join(EXPORT.sub("", IMPORT.sub("", it)) for it in modules)
    names = DEFINED.findall(text)
    twice = {it for it in names if names.count(it) > 1}
    is_left = re.search("(?m)^(?:import|export) ", text)
    assert not twice and not is_left, (twice, is_left, "a name is defined twice, or an import is left")
    return text


def source_of(text):
    """The source of a text for a Content Security Policy."""
    return f"'sha256-{base64.b64encode(hashlib.sha256(text.encode()).digest()).decode()}'"


def page_of(module):
    """The page."""
    script, style = f'"use strict";\n{joined(map(part, SCRIPTS))}', part("style.css")
    worker = WORKER_FORM.format(joined([module.decode(), *map(part, WORKER)]))
    data = json.dumps(data_of(module), ensure_ascii=False, separators=(",", ":")).replace("<", "\\u003c")
    assert not [it for it in (script, style, worker) if re.search("<(?:/|!--|script)", it)], "a part ends its element"
    policy = (f"default-src 'none'; script-src {source_of(script)} 'wasm-unsafe-eval'; style-src {source_of(style)}; "
              "worker-src blob:; base-uri 'none'; form-action 'none'")
    filled = {"POLICY": policy, "VERSION": (TOP / "VERSION").read_text().strip(), "STYLE": style, "SCRIPT": script,
              "WORKER": worker, "DATA": data, "NEEDS": NEEDS}
    return re.sub(r"@([A-Z]+)@", lambda it: filled[it[1]], part("page.html"))


def main(module, out):
    """Writes the page."""
    page = page_of(Path(module).read_bytes()).encode()
    assert len(page) <= LARGEST, f"{len(page)} bytes are more than {LARGEST}"
    Path(out).write_bytes(page)


if __name__ == "__main__":
    main(*sys.argv[1:])
