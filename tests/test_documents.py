"""`balisecheck check` of the documents in examples/check, and docs/findings.md."""
import json
import re

import pytest

from runner import EXAMPLES, TOP, answered, run

FOLDER, PAGE = EXAMPLES / "check", (TOP / "docs/findings.md").read_text(encoding="utf-8")
FAULTY = [it for it in sorted(FOLDER.glob("*.txt")) if it.read_text().startswith("no: ")]
# A rule, its title, the first line of a report and the rest of the section.
SECTIONS = re.findall(r"^## F(\d+): (.*)\n\n`(.*)`\n\n((?:.|\n)*?)(?=^## |\Z)", PAGE, re.MULTILINE)
LINK = re.compile(r"\(\.\./examples/check/([a-z0-9.-]+)\)")


@pytest.mark.parametrize("path", sorted(FOLDER.glob("*.json")), ids=lambda path: path.stem)
def test_example(path):
    """A document has its report beside it, and a corrected one gets a yes. The report stays the same if the balises of
    each group are its only aspect."""
    document = json.loads(path.read_text())
    if path.stem.endswith("-mended"):
        report = f"yes: groups {len(document['groups'])}, messages {len(document['messages'])}\n"
    else:
        report = path.with_suffix(".txt").read_text()
    assert run(["check"], path.read_text()) == answered(report)
    document["groups"] = [it if "aspects" in it else {"aspects": [it]} for it in document["groups"]]
    assert run(["check"], json.dumps(document)) == answered(report)


def other(found):
    """The telegram with the first bit of its NID_BG turned."""
    digits = found[0]
    return f"{int(digits, 16) ^ 1 << 4 * len(digits) - 36:0{len(digits)}x}"


@pytest.mark.parametrize("path", FAULTY, ids=lambda path: path.stem)
def test_again(path):
    """With all groups once more, under other identities, and all messages, a document has all findings once more."""
    document = json.loads(path.with_suffix(".json").read_text())
    lines, wanted = path.read_text().splitlines()[1:], []
    for kind in "group", "message":
        some = [re.split(rf"(?<= {kind} )(\d+)", it) for it in lines if f" {kind} " in it]
        wanted += [f"{rule}{int(at) + by}{rest}" for by in (0, len(document[f"{kind}s"])) for rule, at, rest in some]
    document["groups"] += json.loads(re.sub("[0-9a-f]{54,}", other, json.dumps(document["groups"])))
    document["messages"] *= 2
    assert run(["check"], json.dumps(document)) == answered("\n".join([f"no: findings {len(wanted)}", *wanted, ""]))


@pytest.mark.parametrize("rule, title, shown, section", SECTIONS)
def test_section(rule, title, shown, section):
    """The section links an example with findings of only this rule, whose first line it shows, and a corrected one."""
    name, *corrected = LINK.findall(section)
    report = (FOLDER / name).with_suffix(".txt").read_text()
    assert corrected == [name.replace(".json", "-mended.json")]
    assert re.fullmatch(rf"no: findings \d+\n(F{rule} [a-z0-9 ]+: {title}\n)+", report)
    assert report.splitlines()[1] == shown


def values(name):
    """The variables of an example's telegrams and messages, with their numbers."""
    document = json.loads((FOLDER / name).read_text())
    rows = [row for it in document["groups"] for row in it.get("aspects", [it])]
    texts = [text for row in rows for text in row["balises"]]
    lines = run(["decode"], "\n".join(texts)).stdout
    return set(re.findall(r'"(\w+)":(\d+)', lines))


@pytest.mark.parametrize("rule, section", [(rule, section) for rule, *_, section in SECTIONS])
def test_values_of_example(rule, section):
    """The variables that the section names before and after the correction have these numbers in the two examples."""
    (example,) = re.findall(r"(?m)^- \*\*Example\.\*\* Before (.*)$", section)
    before, after = example.split(" After ")
    for told, name in zip((before, after), LINK.findall(example)):
        named = {(key.lower(), number) for key, number in re.findall(r"\b([A-Z]+_[A-Z_]+) (\d+)\b", told)}
        assert named <= values(name), (rule, named - values(name))
    assert re.search(r"[A-Z]_[A-Z]+ \d", before)


def test_page():
    """The page has a section for each rule, and together they link all corrected documents."""
    assert [int(rule) for rule, *_ in SECTIONS] == [*range(1, 17)]
    linked = {name for *_, section in SECTIONS for name in LINK.findall(section)[1:]}
    assert linked == {path.name for path in FOLDER.glob("*-mended.json")}
