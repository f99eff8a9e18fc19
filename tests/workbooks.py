"""Workbooks for tests, as few parts as a spreadsheet needs. Each part can be replaced by another one."""
import io
import zipfile
from xml.sax.saxutils import escape, quoteattr

MAIN = "http://schemas.openxmlformats.org/spreadsheetml/2006/main"
KINDS = "http://schemas.openxmlformats.org/officeDocument/2006/relationships"
PACKAGE = "http://schemas.openxmlformats.org/package/2006/relationships"
HEAD = '<?xml version="1.0" encoding="UTF-8" standalone="yes"?>\n'


def letters(column):
    """The letters of a column, which is numbered from 0 on."""
    return (letters(column // 26 - 1) if column >= 26 else "") + chr(65 + column % 26)


def cell(value, reference):
    """The XML of a cell: a text, a number, or XML that is already one."""
    if isinstance(value, Raw):
        return value.format(reference=reference)
    if isinstance(value, (int, float)):
        return f'<c r="{reference}"><v>{value!r}</v></c>'
    return f'<c r="{reference}" t="inlineStr"><is><t xml:space="preserve">{escape(value)}</t></is></c>' if value else ""


class Raw(str):
    """The XML of a cell, in which {reference} is its place."""


def sheet(rows, before="", after="", hidden=()):
    """The XML of a sheet. Rows whose numbers are in `hidden` are hidden."""
    lines = []
    for number, row in enumerate(rows, 1):
        cells = "".join(cell(value, f"{letters(column)}{number}") for column, value in enumerate(row))
        mark = ' hidden="1"' if number in hidden else ""
        lines.append(f'<row r="{number}"{mark}>{cells}</row>')
    return f'{HEAD}<worksheet xmlns="{MAIN}">{before}<sheetData>{"".join(lines)}</sheetData>{after}</worksheet>'


def parts(sheets, states=()):
    """The parts of a workbook with these sheets, by their names: rows, or the XML of a sheet."""
    names = [*sheets]
    states = [*states, *["visible"] * len(names)]
    listed = "".join(f'<sheet name={quoteattr(name)} sheetId="{at}" state="{states[at - 1]}" r:id="rId{at}"/>'
                     for at, name in enumerate(names, 1))
    relations = "".join(f'<Relationship Id="rId{at}" Type="{KINDS}/worksheet" Target="worksheets/sheet{at}.xml"/>'
                        for at in range(1, len(names) + 1))
    start = f'<Relationship Id="rId1" Type="{KINDS}/officeDocument" Target="xl/workbook.xml"/>'
    made = {"[Content_Types].xml": f'{HEAD}<Types xmlns="http://schemas.openxmlformats.org/package/2006/content-types"/>',
            "_rels/.rels": f'{HEAD}<Relationships xmlns="{PACKAGE}">{start}</Relationships>',
            "xl/workbook.xml": f'{HEAD}<workbook xmlns="{MAIN}" xmlns:r="{KINDS}"><sheets>{listed}</sheets></workbook>',
            "xl/_rels/workbook.xml.rels": f'{HEAD}<Relationships xmlns="{PACKAGE}">{relations}</Relationships>'}
    for at, rows in enumerate(sheets.values(), 1):
        made[f"xl/worksheets/sheet{at}.xml"] = rows if isinstance(rows, (str, bytes)) else sheet(rows)
    return made


def packed(members, method=zipfile.ZIP_DEFLATED):
    """The bytes of a zip with these parts."""
    out = io.BytesIO()
    with zipfile.ZipFile(out, "w", method) as made:
        for name, content in members.items():
            made.writestr(name, content)
    return out.getvalue()


def workbook(sheets, states=(), **more):
    """The bytes of a workbook. `more` replaces parts by their names."""
    return packed({**parts(sheets, states), **more})
