"""Workbooks written part by part, as no spreadsheet writes them."""

from __future__ import annotations

import io
import zipfile
from typing import Dict, Sequence, Tuple, Union

MAIN = "http://schemas.openxmlformats.org/spreadsheetml/2006/main"
OFFICE = "http://schemas.openxmlformats.org/officeDocument/2006/relationships"
PACKAGE = "http://schemas.openxmlformats.org/package/2006"
CALCULATED = "<calcPr calcId='191029'/>"
"""What a spreadsheet writes of its formulas, which it has calculated."""
KIND = "application/vnd.openxmlformats-officedocument.spreadsheetml"
HEADING = "<row><c t='inlineStr'><is><t>group</t></is></c><c t='inlineStr'><is><t>telegram</t></is></c></row>"


def text(value: str, place: str = "") -> str:
    """A cell with this text."""
    return f"<c{place and f' r={place!r}'} t='inlineStr'><is><t>{value}</t></is></c>"


def row(*cells: str, number: str = "") -> str:
    """A row of these texts."""
    return f"<row{number and f' r={number!r}'}>{''.join(map(text, cells))}</row>"


def sheet(*rows: str, behind: str = "") -> str:
    """The XML of a sheet."""
    return f"<worksheet xmlns='{MAIN}'><sheetData>{''.join(rows)}</sheetData>{behind}</worksheet>"


def workbook(
    *sheets: Union[str, bytes],
    states: Sequence[str] = (),
    more: Sequence[Tuple[str, str, str]] = (),
    calculation: str = CALCULATED,
) -> bytes:
    """A workbook of these sheets. Each of the other parts has a name, the kind of its contents and its XML."""
    names = [f"xl/worksheets/sheet{number}.xml" for number in range(1, len(sheets) + 1)]
    kinds = {"xl/workbook.xml": "sheet.main", **{name: "worksheet" for name in names}, **{n: k for n, k, _ in more}}
    parts: Dict[str, Union[str, bytes]] = {
        "[Content_Types].xml": f"<Types xmlns='{PACKAGE}/content-types'><Default Extension='rels' ContentType='"
        "application/vnd.openxmlformats-package.relationships+xml'/>"
        + "".join(f"<Override PartName='/{name}' ContentType='{KIND}.{kind}+xml'/>" for name, kind in kinds.items())
        + "</Types>",
        "xl/workbook.xml": f"<workbook xmlns='{MAIN}' xmlns:r='{OFFICE}'><sheets>"
        + "".join(
            f"<sheet name='S{number}' sheetId='{number}' r:id='r{number}' state='{state}'/>"
            for number, state in enumerate([*states, *["visible"] * (len(sheets) - len(states))], 1)
        )
        + f"</sheets>{calculation}</workbook>",
        "xl/_rels/workbook.xml.rels": f"<Relationships xmlns='{PACKAGE}/relationships'>"
        + "".join(
            f"<Relationship Id='r{number}' Type='{OFFICE}/worksheet' Target='worksheets/sheet{number}.xml'/>"
            for number in range(1, len(sheets) + 1)
        )
        + "</Relationships>",
        **dict(zip(names, sheets)),
        **{name: content for name, _, content in more},
    }
    out = io.BytesIO()
    with zipfile.ZipFile(out, "w", zipfile.ZIP_DEFLATED, compresslevel=1) as file:
        for name, content in parts.items():
            file.writestr(name, content)
    return out.getvalue()
