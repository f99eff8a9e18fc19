"""Files that try to break the page for browsers: broken, huge, in strange encodings, or with markup. Each has the name of
its file, what makes its bytes, and how the page's sentence on it begins, as a regular expression."""
import collections
import io
import struct
import warnings
import zipfile

from checker_page import SHORT
from workbooks import HEAD, KINDS, MAIN, Raw, letters, packed, parts, sheet, workbook

Hostile = collections.namedtuple("Hostile", "file content said")
LARGE = "50 MB "  # (how the names of large files begin)
TABLE = f"group,telegram\nA,{SHORT}\n"
ROWS = [["group", "telegram"], ["A", SHORT]]
YES, NOT_ROW = r"yes: groups 1, telegrams 1$", r"refused: row 2: the telegram is not hexadecimal$"
NUL = "This file has NUL bytes, so it is no text in UTF-8"
DAMAGED, UNREADABLE = "Not checked: the workbook is damaged or cut short: ", "Not checked: the workbook cannot be read: "
MARKUP = {
    "image": "<img src=x onerror=alert(1)>", "script": "<script>alert(1)</script>", "svg": '"><svg onload=alert(1)>',
    "end": "</td></table><script>alert(1)</script>", "address": "javascript:alert(1)", "template": "{{constructor.constructor('alert(1)')()}}",
    "entity": "&lt;script&gt;alert(1)&lt;/script&gt;", "attribute": "' onmouseover='alert(1)", "frame": "<iframe srcdoc='<script>alert(1)</script>'>",
    "direction": "\u202eA", "style": "<style>*{display:none}</style>", "comment": "<!--", "section": "<![CDATA[<script>",
    "base": "<base href=http://127.0.0.1:9/>", "refresh": "<meta http-equiv=refresh content='0;url=http://127.0.0.1:9/'>",
}
NAMES = "__proto__", "constructor", "toString", "hasOwnProperty", "valueOf", "then", "=HYPERLINK(1)", "@SUM(A1)", "\x07", "\U0001f682"
DIGITS = {
    "prefix": "0x" + SHORT, "suffix": SHORT + "h", "colons": ":".join(SHORT[:8]), "hyphens": "-".join(SHORT[:8]),
    "no-break blank": SHORT[:9] + "\u00a0" + SHORT[9:], "wide digits": "\uff11" * 54, "Arabic digits": "\u0661" * 54,
    "Cyrillic": SHORT.replace("a", "\u0430"), "exponent": "1.6093E+62", "percent": "12%", "formula": "=HEX2DEC(1)",
    "apostrophe": "'" + SHORT, "zero width": SHORT[:9] + "\u200b" + SHORT[9:], "NUL": SHORT[:9] + "\0" + SHORT[9:],
    "minus": "-1", "letter": "g" + SHORT[1:], "markup": "<b>" + SHORT + "</b>", "line end": f'"{SHORT[:9]}\n{SHORT[9:]}"',
}


def text_files():
    """Tables of separated values."""
    for name, text in MARKUP.items():
        quoted = '"' + text.replace('"', '""') + '"'
        yield f"group {name}", "a.csv", f"group,telegram\n{quoted},{SHORT}\n", YES
        yield f"telegram {name}", "a.csv", f"group,telegram\nA,{quoted}\n", NOT_ROW
        yield f"heading {name}", "a.csv", f"group,telegram,{quoted}\nA,{SHORT},{quoted}\nB,00,{quoted}\n", "refused: row 3: wrong size$"
    for name in NAMES:
        quoted = f'"{name}"'
        yield f"name {name!r}", "a.csv", f"group,{quoted},telegram\n{quoted},{quoted},{SHORT}\n", YES
    for name, digits in DIGITS.items():
        yield f"digits {name}", "a.csv", f"group,telegram\nA,{digits}\n", NUL if name == "NUL" else NOT_ROW


def encoded_files():
    """Texts in other encodings, or in none."""
    german = f"group,telegram\nStra\u00dfe,{SHORT}\n"
    for name in "utf-16", "utf-32", "utf-16-le", "utf-16-be":
        said = "This file is in UTF-16" if name in ("utf-16", "utf-32") else NUL
        yield name, "a.csv", german.encode(name), said
    for name, text in {"latin-1": german.encode("latin-1"), "cp1252": german.replace("ß", "\u20ac").encode("cp1252"),
                       "overlong": TABLE.encode() + b"\xc0\xaf", "surrogate": TABLE.encode() + b"\xed\xa0\x80",
                       "cut": TABLE.encode() + b"\xe2\x82", "byte": TABLE.encode() + b"\xff",
                       "beyond": TABLE.encode() + b"\xf4\x90\x80\x80"}.items():
        yield f"not UTF-8, {name}", "a.csv", text, "refused: not UTF-8"
    yield "utf-8 with a mark", "a.csv", german.encode("utf-8-sig"), YES
    yield "two marks", "a.csv", b"\xef\xbb\xbf" + german.encode("utf-8-sig"), "refused: no heading row"
    yield "late NUL", "a.csv", (TABLE + "\n" * 5000 + f"B,{SHORT}\0\n").encode(), "refused: row 5003: the telegram is not hexadecimal"
    yield "NUL in a name", "a.csv", (TABLE + "\n" * 5000 + f"B\0,{SHORT}\n").encode(), "no: findings 1$"


def formed_files():
    """Tables whose quotes, rows or headings are wrong, or very many."""
    for name, (text, said) in {
        "open quote at the end": (f'{TABLE}"', "refused: row 3: a quote that is not closed"),
        "open quote at the start": (f'"{TABLE}', "refused: no heading row"),
        "open quote in a row": (f'{TABLE}"B,{SHORT}\n' + TABLE * 1000, "refused: row 3: a quote that is not closed"),
        "quote inside": (f'{TABLE}B",{SHORT}\n', "refused: row 3: a quote in a field without quotes"),
        "text after a quote": (f'{TABLE}"B"x,{SHORT}\n', "refused: row 3: text after the quote that ends a field"),
        "odd quotes": (f'{TABLE}{chr(34) * 9999},{SHORT}\n', "refused: row 3: a quote that is not closed"),
        "even quotes": (f'{TABLE}{chr(34) * 9998},{SHORT}\n', "no: findings 1$"),
        "only quotes": ('"' * 10000, "refused: no heading row"),
        "long name": (f"group,telegram\n{'N' * 1000000},{SHORT}\n", YES),
        "long telegram": (f"group,telegram\nA,{'a' * 1000000}\n", "refused: row 2: wrong size$"),
        "long heading": (f"group,telegram,{'x' * 1000000}\nA,{SHORT},{'y' * 1000000}\n", YES),
        "one line": ("x" * 5000000, "refused: no heading row"),
        "100,000 columns": (f"group,telegram{',x' * 100000}\nA,{SHORT}\n", "Not checked: a row has more than 16384 fields"),
        "100,000 fields": (f"{TABLE}B,{SHORT}{',' * 100000}\n", "Not checked: a row has more than 16384 fields"),
        "16,384 columns": (f"group,telegram{',x' * 16382}\nA,{SHORT}\n", YES),
        "empty rows": (TABLE + "\n" * 1000000, YES), "rows of commas": (TABLE + ",\n" * 300000, YES),
        "vertical tabs": (f"group,telegram\x0bA,{SHORT}\n", "refused: no heading row"),
        "separators": (f"group,telegram\u2028A,{SHORT}\u2028\n", "refused: no heading row"),
        "reversed line ends": (f"group,telegram\n\rA,{SHORT}\n\r", YES),
        "no headings": (f"A,{SHORT}\n", "refused: no heading row"), "headings only": ("group,telegram\n", "refused: no telegram"),
        "headings in row 21": ("\n".join(["x,y"] * 20) + f"\n{TABLE}", "refused: no heading row"),
        "headings with blanks": (f" group, telegram\nA,{SHORT}\n", "refused: no heading row"),
        "headings in quotes": (f'"group","TELEGRAM"\nA,{SHORT}\n', YES), "heading twice": (f"group,group,telegram\nA,B,{SHORT}\n", "refused: row 1: heading group twice"),
        "two delimiters": (f"group,telegram\ngroup;telegram\nA;{SHORT}\n", "refused: two delimiters"),
        "telegram above": (f"{SHORT},\n{TABLE}", "refused: row 1: a telegram above the headings"),
        "huge number": (f"group,balise,telegram\nA,99999,{SHORT}\n", "refused: row 2: the balise is not a number"),
        "negative number": (f"group,balise,telegram\nA,-1,{SHORT}\n", "refused: row 2: the balise is not a number"),
        "Devanagari number": (f"group,balise,telegram\nA,\u0967,{SHORT}\n", "refused: row 2: the balise is not a number"),
        "nine balises": ("group,telegram\n" + f"A,{SHORT}\n" * 9, "refused: row 10: ninth balise"),
        "one group": ("group,telegram\n" + f"A,{SHORT}\n" * 20000, "refused: row 10: ninth balise"),
        "many aspects": ("group,aspect,telegram\n" + "".join(f"A,{it},{SHORT}\n" for it in range(20000)), "yes: groups 1, telegrams 20000$"),
        "every aspect": (f"group,aspect,telegram\nA,*,{SHORT}\n", YES),
        "JSON": ('{"groups":[],"messages":[]}', "refused: no heading row"), "page": ("<html><script>alert(1)</script></html>", "refused: no heading row"),
        "empty": ("", "There is nothing to check"), "blanks": (" \n\t\n", "refused: no heading row"),
    }.items():
        yield name, "a.csv", text, said


def cut(share):
    """A part of a good workbook."""
    whole = workbook({"Line": ROWS})
    return whole[:len(whole) * share // 100]


def flipped(share):
    """A good workbook with a changed byte."""
    whole = bytearray(workbook({"Line": ROWS}))
    whole[len(whole) * share // 100] ^= 0x55
    return bytes(whole)


def patched(mark, at, form, value, whole=None):
    """A good workbook whose first record with this mark has another value."""
    made = bytearray(whole or workbook({"Line": ROWS}))
    struct.pack_into(form, made, made.index(mark) + at, value)
    return bytes(made)


def bomb(size, told=None):
    """A workbook of which a part unpacks to so many zeros, and is said to have another size."""
    made = workbook({"Line": ROWS}, **{"xl/media/zeros.xml": b"\0" * size})
    if told is None:
        return made
    made = bytearray(made)
    struct.pack_into("<I", made, made.index(b"PK\x01\x02", made.rindex(b"xl/media/zeros.xml") - 60) + 24, told)
    return bytes(made)


def twice(name):
    """A workbook with one part twice."""
    out = io.BytesIO(packed(parts({"Line": ROWS})))
    with warnings.catch_warnings(), zipfile.ZipFile(out, "a") as made:
        warnings.simplefilter("ignore")
        made.writestr(name, sheet(ROWS))
    return out.getvalue()


def zips():
    """Zips that are broken, too large, or no workbook."""
    good = workbook({"Line": ROWS})
    for share in 1, 10, 25, 50, 75, 90, 99:
        yield f"cut at {share} %", "a.xlsx", cut(share), DAMAGED
    for share in 5, 15, 30, 45, 60, 70, 80, 90:
        yield f"flipped at {share} %", "a.xlsx", flipped(share), "(Not checked: the workbook|yes|refused)"
    central, local, end = b"PK\x01\x02", b"PK\x03\x04", b"PK\x05\x06"
    yield "empty zip", "a.xlsx", packed({}), "Not checked: the workbook"
    yield "only an end", "a.xlsx", end + b"\0" * 18, "Not checked: the workbook"
    yield "wrong checksum", "a.xlsx", patched(central, 16, "<I", 1), DAMAGED
    yield "wrong size", "a.xlsx", patched(central, 24, "<I", 1), DAMAGED
    yield "huge size", "a.xlsx", patched(central, 24, "<I", 0xfffffff0), "Not checked: the workbook has 4294968... bytes unpacked"
    yield "wrong packed size", "a.xlsx", patched(central, 20, "<I", 0xfffffff0), DAMAGED
    yield "wrong place", "a.xlsx", patched(central, 42, "<I", 0x7fffffff), DAMAGED
    yield "password", "a.xlsx", patched(central, 8, "<H", 1), "Not checked: the workbook is protected by a password"
    yield "unknown method", "a.xlsx", patched(central, 10, "<H", 12), DAMAGED
    yield "LZMA", "a.xlsx", packed(parts({"Line": ROWS}), zipfile.ZIP_LZMA), DAMAGED
    yield "stored", "a.xlsx", packed(parts({"Line": ROWS}), zipfile.ZIP_STORED), YES
    yield "wrong count", "a.xlsx", patched(end, 10, "<H", 2), DAMAGED
    yield "great count", "a.xlsx", patched(end, 10, "<H", 0xffff), DAMAGED
    yield "wrong directory", "a.xlsx", patched(end, 16, "<I", 0), DAMAGED
    yield "far directory", "a.xlsx", patched(end, 16, "<I", 0xffffffff), DAMAGED
    yield "other local name", "a.xlsx", patched(local, 30, "<B", 0x41), DAMAGED
    yield "in front", "a.xlsx", b"PK\x03\x04" + b"x" * 100 + good, DAMAGED
    yield "behind", "a.xlsx", good + b"x" * 10, DAMAGED
    yield "two workbooks", "a.xlsx", good + good, DAMAGED
    yield "part twice", "a.xlsx", twice("xl/worksheets/sheet1.xml"), DAMAGED
    yield "part in two cases", "a.xlsx", twice("XL/worksheets/Sheet1.xml"), DAMAGED
    yield "bomb", "a.xlsx", bomb(110_000_000), "Not checked: the workbook has .* bytes unpacked, more than 100000000"
    yield "lying bomb", "a.xlsx", bomb(60_000_000, 1000), DAMAGED
    yield "zip in a zip", "a.xlsx", packed({"a.xlsx": good}), UNREADABLE
    yield "upward names", "a.xlsx", workbook({"Line": ROWS}, **{"../../etc/passwd": b"x"}), YES
    yield "60,000 parts", "a.xlsx", packed({f"{it}": "" for it in range(60000)}, zipfile.ZIP_STORED), UNREADABLE
    yield "markup in a part's name", "a.xlsx", workbook({"Line": ROWS}, **{"<img src=x onerror=alert(1)>.bin": b"x"}), YES
    yield "old workbook", "a.xls", b"\xd0\xcf\x11\xe0\xa1\xb1\x1a\xe1" + b"\0" * 600, "This is an old workbook"
    yield "old workbook by content", "a.xlsx", b"\xd0\xcf\x11\xe0\xa1\xb1\x1a\xe1" + b"\0" * 600, "This is an old workbook"
    yield "OpenDocument", "a.ods", packed({"mimetype": "application/vnd.oasis.opendocument.spreadsheet"}), "This is a workbook of another kind"
    yield "OpenDocument by content", "a.xlsx", packed({"mimetype": "x", "content.xml": "<a/>"}), UNREADABLE
    yield "binary workbook", "a.xlsb", packed({"xl/workbook.bin": b"\0"}), "This is a workbook of another kind"
    yield "binary workbook by content", "a.xlsx", packed({"[Content_Types].xml": "<a/>", "xl/workbook.bin": b"\0"}), UNREADABLE
    yield "text of a word processor", "a.docx", packed({"[Content_Types].xml": "<a/>", "word/document.xml": "<a/>"}), UNREADABLE
    yield "PDF", "a.pdf", b"%PDF-1.7\n", "This is a PDF"
    yield "picture", "a.png", b"\x89PNG\r\n\x1a\n\0\0\0\rIHDR", NUL
    yield "program", "a.csv", b"\x7fELF\2\1\1\0" + b"\0" * 100, NUL


def with_sheet(xml):
    """A workbook whose only sheet is this XML."""
    return workbook({"Line": xml})


def data_of(rows):
    """The XML of a sheet with these rows as XML."""
    return f'{HEAD}<worksheet xmlns="{MAIN}"><sheetData>{rows}</sheetData></worksheet>'


def texts_of(xml):
    """A workbook with these shared strings, of which the cells take the first four."""
    cells = "".join(f'<row r="{row}"><c r="A{row}" t="s"><v>{2 * row - 2}</v></c><c r="B{row}" t="s"><v>{2 * row - 1}</v></c></row>'
                    for row in (1, 2))
    made = parts({"Line": data_of(cells)})
    relation = f'<Relationship Id="rId9" Type="{KINDS}/sharedStrings" Target="sharedStrings.xml"/></Relationships>'
    made["xl/_rels/workbook.xml.rels"] = made["xl/_rels/workbook.xml.rels"].replace("</Relationships>", relation)
    return packed({**made, "xl/sharedStrings.xml": xml})


STRINGS = f'{HEAD}<sst xmlns="{MAIN}"><si><t>group</t></si><si><t>telegram</t></si><si><t>A</t></si><si><t>{SHORT}</t></si></sst>'
HEADINGS = '<row r="1"><c r="A1" t="inlineStr"><is><t>group</t></is></c><c r="B1" t="inlineStr"><is><t>telegram</t></is></c></row>'


def own_cells(cells, row=2):
    """The XML of a sheet with a row of these cells below the headings."""
    return data_of(f'{HEADINGS}<row r="{row}">{cells}</row>')


def xmls():
    """Workbooks whose XML is broken, too much, or strange."""
    good, text = sheet(ROWS), f'<c r="B2" t="inlineStr"><is><t>{SHORT}</t></is></c>'
    entity = '<!DOCTYPE a [<!ENTITY b "{}">]>'
    laughs = "".join(f'<!ENTITY b{it} "{f"&b{it - 1};" * 10}">' for it in range(1, 10))
    for name, xml in {
        "no XML": "x", "empty part": "", "cut XML": good[:-20], "binary part": "\0\1\2",
        "document type": good.replace("<worksheet", f"{entity.format('x')}<worksheet"),
        "outside entity": good.replace("<worksheet", '<!DOCTYPE a [<!ENTITY b SYSTEM "file:///etc/passwd">]><worksheet'),
        "many laughs": good.replace("<worksheet", f'<!DOCTYPE a [<!ENTITY b0 "ha">{laughs}]><worksheet').replace("A</t>", "&b9;</t>"),
        "UTF-16": good.encode("utf-16"), "told Latin-1": good.replace("UTF-8", "ISO-8859-1"), "not UTF-8": good.encode() + b"<!--\xff-->",
        "row 0": good.replace('<row r="2"', '<row r="0"'), "row -1": good.replace('<row r="2"', '<row r="-1"'),
        "row twice": good.replace('<row r="2"', '<row r="1"'), "row 1e9": good.replace('<row r="2"', '<row r="1000000000"'),
        "row NaN": good.replace('<row r="2"', '<row r="x"'), "cell of another row": good.replace('r="B2"', 'r="B3"'),
        "cell twice": good.replace('r="B2"', 'r="A2"'), "cells in another order": own_cells(f'{text}<c r="A2"><v>1</v></c>'),
        "column beyond": good.replace('r="B2"', 'r="ZZZ2"'), "no cell": good.replace('r="B2"', 'r="&lt;b&gt;"'),
        "cells outside": good.replace("</sheetData>", f"</sheetData>{text}"), "cells in a sheet twice": good.replace("</worksheet>", f"<sheetData><row>{text}</row></sheetData></worksheet>"),
        "string without strings": own_cells('<c r="A2" t="s"><v>0</v></c>'), "wrapped rows": good.replace("<row ", "<a><row ").replace("</row>", "</row></a>"),
    }.items():
        yield f"XML {name}", "a.xlsx", with_sheet(xml), UNREADABLE
    for name, xml, said in (
        ("deep", data_of("<row>" + "<a>" * 100000 + "</a>" * 100000 + "</row>"), UNREADABLE + "|refused: no heading row"),
        ("many attributes", data_of("<row " + " ".join(f'a{it}="1"' for it in range(100000)) + "/>"), UNREADABLE + "|refused: no heading row"),
        ("script", good.replace("</worksheet>", '<script xmlns="http://www.w3.org/1999/xhtml">alert(1)</script></worksheet>'), UNREADABLE),
        ("style sheet", good.replace("<worksheet", '<?xml-stylesheet href="http://127.0.0.1:9/" type="text/xsl"?><worksheet'), YES),
        ("picture", good.replace("</worksheet>", '<img xmlns="http://www.w3.org/1999/xhtml" src="x" onerror="alert(1)"/></worksheet>'), UNREADABLE),
        ("prefix", good.replace("<", "<x:").replace("<x:/", "</x:").replace("<x:?", "<?").replace("xmlns=", "xmlns:x="), YES),
        ("comment in a cell", good.replace(">A<", "><!-- x -->A<"), YES), ("section", good.replace(">A<", "><![CDATA[A]]><"), YES),
        ("no places", good.replace(' r="B2"', "").replace(' r="A2"', "").replace(' r="2"', ""), YES),
        ("escape", good.replace(">A<", ">_x0000_<"), YES),
        ("no rows", data_of(""), "refused: no heading row"), ("no data", f'<worksheet xmlns="{MAIN}"/>', "refused: no heading row"),
        ("hidden row", sheet(ROWS, hidden=[2]), YES),
        ("number", sheet([ROWS[0], ["A", 1.6e62]]), "refused: sheet Line row 2: cell B2 is a number, whose digits can be lost"),
        ("whole number", sheet([ROWS[0], ["A", 12]]), "refused: sheet Line row 2: cell B2 is a number"),
        ("infinite", sheet([ROWS[0], ["A", Raw('<c r="{reference}"><v>INF</v></c>')]]), "refused: sheet Line row 2: cell B2 is a number"),
        ("error", sheet([ROWS[0], ["A", Raw('<c r="{reference}" t="e"><v>#REF!</v></c>')]]), "refused: sheet Line row 2: cell B2 is an error value"),
        ("formula", sheet([ROWS[0], ["A", Raw('<c r="{reference}"><f>WEBSERVICE("http://127.0.0.1:9/")</f></c>')]]),
         "refused: sheet Line row 2: cell B2 is a formula without a value"),
        ("truth", sheet([ROWS[0], ["A", Raw('<c r="{reference}" t="b"><v>1</v></c>')]]), "refused: sheet Line row 2: cell B2 is a truth value"),
        ("unknown type", sheet([ROWS[0], ["A", Raw('<c r="{reference}" t="zz"><v>1</v></c>')]]), "refused: sheet Line row 2: "),
        ("16,384 columns", sheet([*ROWS, [""] * 16383 + ["x"]]), "refused: sheet Line row 3: no group"),
        ("wide", sheet([ROWS[0], [*ROWS[1], "x"]]), "refused: sheet Line row 2: text to the right of the headings"),
        ("10,000 rows", sheet([ROWS[0], *[["A", SHORT]] * 10000]), "refused: sheet Line row 10: ninth balise"),
    ):
        yield f"sheet {name}", "a.xlsx", with_sheet(xml), said


def books():
    """Workbooks whose parts do not fit together, or have strange names."""
    base, root = parts({"Line": ROWS}), "xl/_rels/workbook.xml.rels"
    for name, change in {
        "no sheet part": {"xl/worksheets/sheet1.xml": None}, "no relations": {root: None}, "no start": {"_rels/.rels": None},
        "no workbook": {"xl/workbook.xml": None}, "no types": {"[Content_Types].xml": None},
        "no sheets": {"xl/workbook.xml": f'<workbook xmlns="{MAIN}"/>'},
        "other relation": {root: base[root].replace("rId1", "rId7")},
        "outside": {root: base[root].replace("Target=", 'TargetMode="External" Target=').replace("worksheets/sheet1.xml", "http://127.0.0.1:9/")},
        "upward": {root: base[root].replace("worksheets/sheet1.xml", "../../../etc/passwd")},
        "address": {root: base[root].replace("worksheets/sheet1.xml", "http://127.0.0.1:9/a.xml")},
        "wrong escape": {root: base[root].replace("worksheets/sheet1.xml", "%E0%A4%A")},
        "start outside": {"_rels/.rels": base["_rels/.rels"].replace("xl/workbook.xml", "http://127.0.0.1:9/")},
        "chart only": {root: base[root].replace("/worksheet\"", "/chartsheet\"")},
        "sheet twice": {"xl/workbook.xml": base["xl/workbook.xml"].replace("</sheets>", '<sheet name="Line" sheetId="2" r:id="rId1"/></sheets>')},
    }.items():
        made = {**base, **change}
        yield f"book {name}", "a.xlsx", packed({key: it for key, it in made.items() if it is not None}), "Not checked: "
    for name, text in list(MARKUP.items())[:6]:
        yield f"sheet name {name}", "a.xlsx", workbook({text: [ROWS[0], ["A", "00"]]}), "refused: sheet .* row 2: wrong size$"
    yield "long sheet name", "a.xlsx", workbook({"x" * 10000: [ROWS[0], ["A", "00"]]}), "refused: sheet x+ ?"
    yield "shared strings", "a.xlsx", texts_of(STRINGS), YES
    yield "runs and readings", "a.xlsx", texts_of(STRINGS.replace("<t>A</t>", "<r><t>A</t></r><rPh><t>B</t></rPh>")), YES
    yield "few strings", "a.xlsx", texts_of(STRINGS.replace(f"<si><t>{SHORT}</t></si>", "")), UNREADABLE
    yield "broken strings", "a.xlsx", texts_of(STRINGS[:-10]), UNREADABLE
    yield "many sheets", "a.xlsx", workbook({f"S{it}": ROWS[:1] for it in range(300)} | {"Line": ROWS}), YES
    yield "strange columns", "a.xlsx", workbook({"Line": [["group", "telegram", *map(letters, range(100))], ROWS[1]]}), YES


def large():
    """Files of 50 MB. Their bytes are made when they are needed."""
    row = f"A,{SHORT}\n"
    for name, make, said in (
        ("rows", lambda: "group,telegram\n" + "".join(f"{it},{SHORT}\n" for it in range(780000)), "(no|yes): "),
        ("one group", lambda: "group,telegram\n" + row * (50_000_000 // len(row)), "refused: row 10: ninth balise"),
        ("line", lambda: "group,telegram\nA," + "a" * 50_000_000, "refused: row 2: wrong size"),
        ("commas", lambda: TABLE + "," * 50_000_000, "Not checked: a row has more than 16384 fields"),
        ("quotes", lambda: TABLE + '"' * 50_000_001, "refused: row 3: a quote that is not closed"),
        ("line ends", lambda: TABLE + "\n" * 50_000_000, YES), ("zeros", lambda: "\0" * 50_000_000, NUL),
        ("name", lambda: f"group,telegram\n{'N' * 50_000_000},{SHORT}\n", YES),
        ("open quote", lambda: f'{TABLE}"' + row * (50_000_000 // len(row)), "refused: row 3: a quote that is not closed"),
    ):
        yield f"{LARGE}{name}", "a.csv", make, said


def hostile():
    """All files by their names."""
    found = {}
    for family in text_files, encoded_files, formed_files, zips, xmls, books, large:
        for name, file, content, said in family():
            assert name not in found, name
            found[name] = Hostile(file, content, said)
    return found


def bytes_of(content):
    """The bytes of a file, which may be made only now."""
    content = content() if callable(content) else content
    return content.encode() if isinstance(content, str) else content
