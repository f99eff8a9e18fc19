"""Finds the rules that users add: in a file of Python, or by the entry points of an installed package.

Such rules are code that runs with the rights of the user. They are named on the command line, or by a file of settings
that the command line names: nothing that is merely found runs.
"""
from __future__ import annotations

import os
import re
import sys
import traceback
from collections import Counter
from contextlib import contextmanager, redirect_stdout
from decimal import Decimal
from functools import partial
from types import ModuleType
from typing import Dict, Iterable, Iterator, List, Tuple, Union

from balisekit.errors import NoAnswer, TableError, faults_of
from balisekit.io import inputs
from balisekit.rules.added import AddedRemark, AddedRule, LineView
from balisekit.rules.discovery import ADDED_NAME
from balisekit.rules.line import Line
from balisekit.rules.rule import FALSE_ALARM, Options, Origin, Remark, Result, Rule, Urgency
from balisekit.rules.template import Template
from balisekit.tables.decimals import own_context
from balisekit.tables.names import clean

GROUP = "balisekit.rules"
"""The group of entry points."""
NAMES = "one to twelve capital letters other than F, L, E and X by themselves, and a number: U1 or ACME-7"
NEEDED = ("What it says", "Why it matters", "Example", FALSE_ALARM, "How to correct it")
"""The paragraphs that the page of an added rule has."""
Named = Union[str, AddedRule]


def load(some: Iterable[Named]) -> Tuple[Rule, ...]:
    """The rules of these files and packages. TableError is raised for a rule that is none, NoAnswer for one that fails.

    A rule in Python, such as one that a script defines, is taken as it is.
    """
    rules: Dict[str, Rule] = {}
    for rule in (rule for named in some for rule in _of(named)):
        if rule.name in rules:
            with faults_of(str(rule.origin)):
                raise TableError(f"there are two rules {rule.name}: the other one is of {rules[rule.name].origin}")
        rules[rule.name] = rule
    return tuple(rules.values())


def _of(named: Named) -> Iterator[Rule]:
    if isinstance(named, AddedRule):
        yield _rule(named, _origin_of(named))
    elif inputs.is_python(named):
        yield _of_file(named)
    else:
        yield from _of_package(named)


def _of_file(path: str) -> Rule:
    """The rule of a file. The checksum is of the text that runs."""
    file = inputs.read_settings(path)
    origin = Origin(path, file.sha256)
    module = ModuleType(f"balisekit_added_{file.sha256}")
    module.__file__ = path
    sys.modules[module.__name__] = module  # (dataclasses look there for their module)
    with failing(path, path, "its import"):
        exec(compile(file.content, path, "exec", dont_inherit=True), module.__dict__)
    return _rule(getattr(module, "RULE", None), origin)


def _of_package(name: str) -> Iterator[Rule]:
    """The rules of an installed package."""
    from importlib import metadata  # (its import takes long)

    try:
        package = metadata.distribution(name)
    except (metadata.PackageNotFoundError, ValueError) as error:
        why = f"{name[:40]} is no installed package, and no file of Python: write rule.py or the name of a package"
        raise TableError(f"--rules-from: {why}") from error
    points = [point for point in package.entry_points if point.group == GROUP]
    if not points:
        raise TableError(f"--rules-from: the package {name[:40]} has no entry point {GROUP}")
    for point in points:
        module = point.value.partition(":")[0].strip()
        with failing(f"{name} {package.version}: {module}", "", "its import"):
            found = point.load()
        path = sys.modules[module].__file__ or ""
        yield _rule(found, Origin(module, inputs.read(path).sha256, name, package.version))


def _origin_of(rule: AddedRule) -> Origin:
    """Where a rule in Python is from. That of a session has no file."""
    path = str(rule)
    return Origin(path, inputs.read(path).sha256 if os.path.isfile(path) else "")


def _rule(added: object, origin: Origin) -> Rule:
    """The rule as all others are. TableError is raised for a rule that is not complete."""
    with faults_of(str(origin)):
        if not isinstance(added, AddedRule):
            raise TableError("it has no AddedRule called RULE")
        for fault in _faults(added):
            raise TableError(f"{added.name}: {fault}")
        template, urgency = Template(added.sentence), Urgency[added.urgency.upper()]
        find = partial(_find, added, template, origin)
        rule = Rule(
            added.name,
            added.looks_at,
            added.page,
            find,
            urgency,
            added.needs_kilometres,
            added.is_default,
            template=template,
            origin=origin,
        )
        lacks = [head for head in NEEDED if head not in rule.parts]
        if lacks:
            raise TableError(f"{added.name}: its page has no paragraph that begins with {lacks[0]}.")
    return rule


def _faults(added: AddedRule) -> Iterator[str]:
    """What is wrong with an added rule, apart from the paragraphs of its page."""
    if not re.fullmatch(ADDED_NAME, str(added.name)):
        yield f"its name has the letter of a family of balisekit, or is none: {NAMES}"
    if not isinstance(added.page, str) or not added.page.startswith(f"{added.name}: "):
        yield f"its page begins with no title: write a docstring that begins with {added.name}: and the title"
    elif re.search("[{}]", added.page):
        yield "its page has a brace"
    if not callable(added.find) or not _is_line(added.looks_at) or not _is_line(added.sentence):
        yield "it needs find, a function, and looks_at and sentence, each a text of one line"
        return
    if str(added.urgency).upper() not in Urgency.__members__:
        yield f"urgency is {added.urgency}: write one of {', '.join(each.name.lower() for each in Urgency)}"
    try:
        Template(added.sentence)
    except ValueError as error:
        yield f"its sentence is no template: {error}"


def _is_line(text: object) -> bool:
    return isinstance(text, str) and text.strip() != "" and text.isprintable()


def _find(added: AddedRule, template: Template, origin: Origin, line: Line, options: Options) -> Result:
    """What an added rule finds."""
    found: List[Remark] = []
    looked_at, skipped = 0, Counter[str]()
    view = LineView(line)  # (of its own, since a rule can change what it is given)
    with failing(str(origin), str(added), added.name):
        answers = iter(added.find(view))
        for answer in answers:
            if isinstance(answer, str):
                skipped[clean(answer) or "no reason is given"] += 1
                continue
            looked_at += 1
            try:
                found += [] if answer is None else [_remark(added, template, origin, answer)]
            except (TypeError, ValueError) as error:
                getattr(answers, "throw", _throw)(error)  # (so that it has the line of the rule)
                raise  # (also if the rule catches it)
    return Result(found, looked_at, skipped)


def _throw(error: Exception) -> None:
    raise error


def _remark(added: AddedRule, template: Template, origin: Origin, answer: AddedRemark) -> Remark:
    """The remark of an answer."""
    if not isinstance(answer, AddedRemark):
        raise TypeError(f"find yields a {type(answer).__name__}: yield a remark, None or a str")
    values = template.values(answer.values)
    return Remark(
        added.name,
        answer.location,
        template.words(values),
        values={name: value for name, value in values.items() if isinstance(value, Decimal)},
        texts={name: value for name, value in values.items() if isinstance(value, str)},
        urgency=Urgency[added.urgency.upper()],
        arguments=template.arguments(values),
        origin=origin,
    )


@contextmanager
def failing(origin: str, path: str, what: str) -> Iterator[None]:
    """An error of added code has its origin and the line. What the code prints goes to standard error.

    Afterwards the current folder and the context of decimal fractions are as before.
    """
    folder = inputs.current_folder()
    try:
        with redirect_stdout(sys.stderr), own_context():
            yield
    except (KeyboardInterrupt, MemoryError):
        raise
    except BaseException as error:  # (a SystemExit with status 0 would be a green that hides the rest)
        said = f"{what} fails with {type(error).__name__}: {error}"
        raise NoAnswer(f"{origin}, {_line_of(error, path)}: {said}") from error
    finally:
        if folder != inputs.current_folder():
            os.chdir(folder)


def _line_of(error: BaseException, path: str) -> str:
    """The last line of this file that led to an error, or else the last line of all."""
    places = [(frame.f_code.co_filename, line) for frame, line in traceback.walk_tb(error.__traceback__)]
    if isinstance(error, SyntaxError):
        places.append((error.filename or path, error.lineno or 0))
    file, line = ([place for place in places if place[0] == path] or places)[-1]
    return f"line {line}" if file == path else f"{file}, line {line}"
