"""The definitions in crates/*/specs, and which of them each one rests on.

Imports, definitions and proofs are separated by empty lines. A definition begins with `record`, `data`, `abbrev` or
`unfoldable`, a proof with its name. What is in specs/lemmas serves proofs only. Types of src and what the toolchain's
libraries define are no definitions here. A type can have conditions, in ghost members: `conditions` has their
definitions, which `closure` leaves out.
"""
from __future__ import annotations

import functools
import re
from pathlib import Path
from typing import Dict, FrozenSet, Iterable, Iterator, List, Mapping, NamedTuple, Sequence, Set, Tuple

TOP = Path(__file__).resolve().parents[2]
Key = Tuple[str, str]
"""A module, such as `etcs_edition.specs.Wire`, and a name in it."""
NOTHING: Mapping[Key, Sequence[Key]] = {}
"""No definition is replaced by others."""
USE = re.compile(r"(?m)^(?:pub )?use Rattle\.([\w.]+)\.\{(.*)\}$")
BLOCK = re.compile(r"(?:.+\n)+")
TYPE = re.compile(r"(?ms)^pub (?:struct|enum) (\w+)\b[^;]*?\{.*?^\}")
GHOST_USE = re.compile(r"(?m)^ghost use Rattle\.([\w.]+)\.\{(.*)\};$")
COMMENT = re.compile(r"(?m)^ *(?:--|unfolding ).*\n")
HEAD = re.compile(r"(?:pub )?(?:record|data) (\S+)|(?:abbrev |unfoldable )(?:pub )?(\S+) :"
                  r"|(?:abbrev mutual\n)? +(?:pub )?(\S+) :|(?:pub )?(\S+) :\s")
# Names of fields refer to nothing: where a record declares them, after a dot, and where a value is made.
FIELDS = re.compile(r"(?m)(?<=[\w)])\.[\w'.-]+|^ +(?:pub )?\w+ (?=: )|(?<=[{;]) *\w+ (?== )|^ +\w+ (?== )")


class Definition(NamedTuple):
    """A definition or a proof: its place, and its text without comments."""

    module: str
    name: str
    path: Path
    line: int
    text: str
    is_proof: bool

    @property
    def key(self) -> Key:
        """Where it is named."""
        return self.module, self.name

    @property
    def lines(self) -> int:
        """How many lines it has, without comments."""
        return self.text.count("\n")

    @property
    def words(self) -> Set[str]:
        """The names and operators that it has, but not those of fields."""
        text = re.sub(r'(?m)"[^"\n]*"| -- .*$', "", self.text)
        return {*re.findall(r"[\w'-]+|[^\w\s(){}\[\],;.:]+", FIELDS.sub("", text))}


def module_of(path: Path) -> str:
    """The module of a file."""
    return ".".join(path.relative_to(TOP / "crates").with_suffix("").parts)


def definitions_in(path: Path) -> Iterator[Definition]:
    """The definitions and proofs of a file, in its order."""
    text = path.read_text("utf-8")
    for block in BLOCK.finditer(text):
        own = COMMENT.sub("", block[0])
        found = HEAD.match(re.sub(r"(?m)^infix.*\n", "", own))
        if found and not re.match(r"(?:pub )?(?:use|mod) ", own):
            line = text.count("\n", 0, block.start()) + block[0][: block[0].index(own.split("\n")[0])].count("\n") + 1
            is_proof = found[4] is not None or "lemmas" in path.parts
            yield Definition(module_of(path), found[found.lastindex or 0], path, line, own, is_proof)


def files() -> List[Path]:
    """The files of definitions."""
    return sorted(TOP.glob("crates/*/specs/**/*.antt"))


@functools.lru_cache(None)
def definitions() -> Mapping[Key, Definition]:
    """Every definition and proof of the crates."""
    return {it.key: it for path in files() for it in definitions_in(path)}


@functools.lru_cache(None)
def imports() -> Mapping[str, Dict[str, Key]]:
    """What each module imports, by the names that it uses for it."""
    found: Dict[str, Dict[str, Key]] = {}
    for path in files():
        own = found.setdefault(module_of(path), {})
        for module, names in USE.findall(path.read_text("utf-8")):
            for name, _, other in (it.strip().partition(" as ") for it in names.split(",")):
                own[other or name] = module, name
    return found


def resolved(module: str, name: str) -> Key:
    """What a name of a module means, which may be imported there."""
    return imports().get(module, {}).get(name, (module, name))


@functools.lru_cache(None)
def names_in(module: str) -> Mapping[str, Key]:
    """What the names in a module mean: those that it imports, also by way of another module, and its own."""
    imported = {name: resolved(*its) for name, its in imports()[module].items()}
    return {**imported, **{name: (its, name) for its, name in definitions() if its == module}}


def meant_in(words: str, source: str) -> List[Key]:
    """What words mean in a file of src, by its imports."""
    found = {}
    for module, names in GHOST_USE.findall(source):
        for name, _, other in (it.strip().partition(" as ") for it in names.split(",")):
            found[other or name] = resolved(module, name)
    return [found[it] for it in dict.fromkeys(re.findall(r"\w+", words)) if it in found]


@functools.lru_cache(None)
def types() -> Mapping[str, Tuple[str, str]]:
    """The declaration of each type of src, and its file, by its name."""
    sources = [path.read_text("utf-8") for path in sorted(TOP.glob("crates/etcs_*/src/**/*.rt"))]
    return {it[1]: (it[0], text) for text in sources for it in TYPE.finditer(text)}


@functools.lru_cache(None)
def conditions(name: str) -> FrozenSet[Key]:
    """The definitions in the conditions of a type, and of the types that it contains."""
    found: Set[Key] = set()
    seen, rest = {name}, [name]
    while rest:
        declaration, source = types().get(rest.pop(), ("", ""))
        code = re.sub(r"(?m)^ *//.*$", "", declaration)
        found.update(key for key in meant_in(code, source) if key in definitions())
        inner = {it for it in re.findall(r"\w+", code) if it in types()} - seen
        seen |= inner
        rest += sorted(inner)
    return frozenset(found)


@functools.lru_cache(None)
def named(definition: Definition) -> Tuple[Key, ...]:
    """What a definition names. A name with holes is an operator, each of whose parts then occurs."""
    words = definition.words
    return tuple(key for name, key in names_in(definition.module).items()
                 if key != definition.key and {*filter(None, name.split("◌"))} <= words)


def replaced(keys: Iterable[Key], instead: Mapping[Key, Sequence[Key]]) -> List[Key]:
    """These keys, but what can be read instead of some of them."""
    return [other for key in keys for other in instead.get(key, [key])]


def closure(roots: Iterable[Key], instead: Mapping[Key, Sequence[Key]] = NOTHING) -> List[Definition]:
    """The definitions on which these rest, and these themselves. A definition has no proof among them."""
    found: Set[Key] = set()
    rest = replaced(roots, instead)
    while rest:
        key = rest.pop()
        if key not in found and key in definitions() and not definitions()[key].is_proof:
            found.add(key)
            rest.extend(replaced(named(definitions()[key]), instead))
    return [it for key, it in definitions().items() if key in found]


def lines(roots: Iterable[Key], instead: Mapping[Key, Sequence[Key]] = NOTHING) -> int:
    """How many lines the definitions have on which these rest."""
    return sum(it.lines for it in closure(roots, instead))


def conditions_of(roots: Iterable[Key]) -> Set[Key]:
    """The definitions in the conditions of the types that these name, and that those name on which they rest."""
    named_types = {key[1] for it in closure(roots) for key in named(it) if ".declared." in key[0]}
    return {key for name in named_types for key in conditions(name)}


def key_of(name: str, crate: str, file: str = "") -> Key:
    """The one definition with this name in the specs of a crate, or in one of its files."""
    (found,) = [key for key, it in definitions().items() if key[1] == name and not it.is_proof
                and it.path.is_relative_to(TOP / "crates" / crate) and it.path.name.endswith(file)]
    return found


def in_order(roots: Sequence[Key], instead: Mapping[Key, Sequence[Key]]) -> List[Tuple[Path, List[Definition]]]:
    """The files on which these rest, each after those that it imports, with the definitions that count."""
    needed: Dict[str, List[Definition]] = {}
    for it in closure(roots, instead):
        needed.setdefault(it.module, []).append(it)
    found: Dict[str, List[Definition]] = {}

    def visit(module: str) -> None:
        if module in needed and module not in found:
            for other in [key[0] for it in needed[module] for key in replaced(named(it), instead)]:
                if other != module:
                    visit(other)
            found[module] = needed[module]

    for key in roots:
        visit(key[0])
    return [(its[0].path, its) for its in found.values()]
