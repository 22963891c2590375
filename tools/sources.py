"""Reads the definitions and the contracts of the crates as text: what each file defines, what it names, and where that
stands. For tools/reading, tools/claims, tools/words and docs/check."""
from __future__ import annotations

import os
import re
import shutil
import subprocess
from typing import Iterator, NamedTuple, Optional

TOP = os.path.dirname(os.path.dirname(os.path.realpath(__file__)))

USE = re.compile(r"^\s*(?:pub )?(?:ghost )?use Rattle\.([\w.]+?)(?:\.\{([^}]*)\}| as (\w+))?;?\s*$", re.M)
RUST_USE = re.compile(r"^use (\w+)((?:::\w+)*)(?:::\{([^}]*)\})?;", re.M)
DEFINITION = re.compile(r"^(?:(?:pub|abbrev|unfoldable|private|opaque|record|data) +)+([^\s:({]+)")
PART = re.compile(r"^ +(?:pub )?([\w'-]+) :")
RUST_TYPE = re.compile(r"^(?:pub(?:\(\w+\))? )?(?:struct|enum|trait|type) (\w+)", re.M)
WORD = re.compile(r"[A-Za-z_][\w'-]*(?:\.[A-Za-z_][\w'-]*)?|[^\sA-Za-z_\d(){},.:;]+")


def text_of(name: str) -> str:
    with open(os.path.join(TOP, name), encoding="utf-8") as file:
        return file.read()


def files() -> list[str]:
    """The files of the repository, without those that are made: by git where it answers, else by their folders."""
    words = ["git", "ls-files", "--cached", "--others", "--exclude-standard"]
    listed = subprocess.run(words, cwd=TOP, capture_output=True, text=True) if shutil.which("git") else None
    if listed and not listed.returncode:
        return sorted({name for name in listed.stdout.splitlines() if os.path.isfile(os.path.join(TOP, name))})
    found = []
    for folder, folders, names in os.walk(TOP):
        folders[:] = [name for name in folders if name not in (".git", "out", "__pycache__")]
        found += [os.path.relpath(os.path.join(folder, name), TOP) for name in names]
    return sorted(found)


def without_comments(file: str, text: str) -> str:
    """A file of definitions or of code without its comments, which may stand in each other; its lines stay in their places."""
    begin, end, rest = ("{-", "-}", "--") if file.endswith(".antt") else ("/*", "*/", "//")
    depth, is_comment, kept = 0, False, []
    for piece in re.split("(" + "|".join(map(re.escape, (begin, end, rest, "\n"))) + ")", text):
        is_line_end, is_inside = piece == "\n", is_comment or depth > 0
        is_comment = not is_line_end and (is_comment or piece == rest and not depth)
        if not is_comment:
            depth = max(0, depth + (piece == begin) - (piece == end))
        kept += [piece] * (is_line_end or not is_inside and piece not in (begin, rest))
    return "".join(kept)


class Name(NamedTuple):
    """A definition or a type, by its file and its name."""
    file: str
    name: str


class Source:
    """A file of definitions or of code: the text of each definition in it, and what its `use` lines name."""

    def __init__(self, file: str) -> None:
        self.file = file
        with open(os.path.join(TOP, "crates", file), encoding="utf-8") as opened:
            self.text = opened.read()
        self.blocks: dict[str, str] = {}
        self.parts: set[str] = set()  # fields and constructors
        self.bare = without_comments(file, self.text)
        self.imports: dict[str, tuple[str, str]] = {}
        self.aliases: dict[str, str] = {}
        self.read_uses()
        if file.endswith(".antt"):
            self.read_definitions(self.bare)
        else:
            self.read_types(self.bare)

    def read_uses(self) -> None:
        for module, names, alias in USE.findall(self.bare):
            if alias:
                self.aliases[alias] = module
            for word in [it.strip() for it in names.split(",") if it.strip()]:
                known, _, here = word.partition(" as ")
                self.imports[(here or known).replace("◌", "")] = (module, known.replace("◌", ""))

    def read_definitions(self, text: str) -> None:
        # fields and constructors stand in the text of their type, which is named wherever they are used
        name = ""
        for line in text.splitlines():
            found = DEFINITION.match(line)
            name = found[1].replace("◌", "") if found else name
            if name:
                self.blocks[name] = self.blocks.get(name, "") + line + "\n"
                part = PART.match(line)
                self.parts |= {part[1]} if part else set()

    def read_types(self, text: str) -> None:
        for found in RUST_TYPE.finditer(text):
            rest = text[found.start():]
            end = re.search(r"\A[^\n]*;$|^\}", rest, re.M)
            self.blocks[found[1]] = rest[:end.end()] if end else rest

    def defines(self, name: str) -> bool:
        """Whether a definition, a type, a part of one, or a function with a contract of this name stands in the file."""
        return name in self.blocks or name in self.parts or bool(self.contract_of(name))

    def length_of(self, names: set[str]) -> int:
        """The lines that are to be read: all of a file of definitions, and of one of code those of what is reached; none
        where the file defines nothing of it."""
        if self.file.endswith(".antt"):
            return self.text.count("\n") if any(map(self.defines, names)) else 0
        return sum(len((self.blocks.get(name) or self.contract_of(name)).splitlines()) for name in names)

    def words_at_top(self) -> str:
        """What the file says of itself, in one line."""
        found = re.match(r"(?:(?://!|--).*\n)*", self.text)
        lines = re.findall(r"^(?://!|--) ?(.*)", found[0] if found else "", re.M)
        return " ".join(line.strip() for line in lines).split(". ")[0].rstrip(".")

    def contract_of(self, function: str) -> str:
        found = re.search(rf"^pub fn {re.escape(function)}\b.*?^\{{", self.bare, re.M | re.S)
        return found[0] if found else ""

    def rust_crate_of(self, name: str) -> Optional[str]:
        """The crate from which the code of this file has a type of this name."""
        for crate, path, names in RUST_USE.findall(self.bare):
            if name in re.findall(r"\w+", names) or path.endswith(f"::{name}"):
                return self.file.split("/")[0] if crate == "crate" else str(crate)
        return self.file.split("/")[0]


class Crates:
    """All files of definitions and of code."""

    def __init__(self) -> None:
        self.sources: dict[str, Source] = {}
        for folder, folders, names in os.walk(os.path.join(TOP, "crates")):
            folders.sort()
            place = os.path.relpath(folder, os.path.join(TOP, "crates")).split("/")
            if len(place) > 1 and place[1] in ("specs", "src"):
                for name in sorted(names):
                    if name.endswith((".antt", ".rt")) and "tests" not in name:
                        file = "/".join(place + [name])
                        self.sources[file] = Source(file)
        self.types = {(file.split("/")[0], name): file for file, source in self.sources.items()
                      if file.endswith(".rt") for name in source.blocks}

    def place_of(self, module: str, name: str) -> Optional[Name]:
        """The file in which a name of a module stands, and its name there."""
        crate, *path = module.split(".")
        if path[:1] != ["specs"] or len(path) < 2:
            return None
        if path[1] in ("declared", "contracts"):
            of_type = [word for word in path[2:] if word != "TheVariants"]
            return Name(f"{crate}/src/{'/'.join(of_type[:-1])}.rt", of_type[-1])
        return Name(f"{crate}/specs/{'/'.join(path[1:])}.antt", name)

    def named_in(self, source: Source, text: str) -> Iterator[Name]:
        """The definitions and types that a text of this file names."""
        for word in set(WORD.findall(text)) | set(re.findall(r"[A-Za-z_][\w'-]*", text)):
            first, _, second = word.partition(".")
            place = None
            if first in source.aliases and second:
                place = self.place_of(source.aliases[first], second)
            elif first in source.imports:
                place = self.place_of(*source.imports[first])
            elif first in source.blocks:
                place = Name(source.file, first)
            elif source.file.endswith(".rt"):
                file = self.types.get((source.rust_crate_of(first) or "", first))
                place = Name(file, first) if file else None
            if place and place.file in self.sources:
                yield place

FUNCTION = re.compile(r"^(?P<indent> *)pub (?:const )?fn (?P<name>\w+)(?P<head>[^\n]*\n(?:.*\n)*?)(?P=indent)\{\}?$", re.M)
CLAUSE = re.compile(r"^\s*(ensures|requires)\*?(?: (\w+))? ?\{", re.M)
IMPL = re.compile(r"^(?:impl(?:<[^\n]*?>)? (\w+)(?:<[^\n]*>)? \{$|\}$)", re.M)
# What a clause is about, as in `(k : KernelState)`.
BINDER = re.compile(r"\([\w ]+ : [^()]*\)")
FIELD = re.compile(r"^  (?:pub )?(\w+) :", re.M)
WITHOUT_PARAMETERS = re.compile(r"(?:<[^>]*>)?\(\)\s*\n")


class Clause(NamedTuple):
    """One clause of a public function, or one field of a record that a clause states."""
    crate: str
    function: str  # `kills_leave_nothing`, `Kernel::serve`, `KeepsLaws`
    name: str      # "" for the one clause that has no name
    file: str
    text: str
    words: str     # what the function says of itself, in a sentence
    is_law: bool   # whether the function has no parameters and an empty body


def words_before(text: str, start: int) -> str:
    """The first sentence of the comment that stands right before a place of a file."""
    lines = []
    for line in reversed(text[:start].splitlines()):
        found = re.match(r"\s*(?:///|--) ?(.*)", line)
        if not found and not re.match(r"\s*#\[", line):
            break
        lines += [found[1]] if found else []
    return re.split(r"(?<=\.)\s", " ".join(reversed(lines)))[0].strip()


def owner_at(text: str, start: int) -> str:
    """The type in whose `impl` a place of a file of code stands, or an empty word."""
    owners = [found[1] or "" for found in IMPL.finditer(text, 0, start)]
    return owners[-1] if owners else ""


def clauses_in(source: Source) -> Iterator[Clause]:
    """What the public functions of a file of code promise."""
    for found in FUNCTION.finditer(source.bare):
        owner = owner_at(source.bare, found.start())
        function = f"{owner}::{found['name']}" if owner else found["name"]
        is_law = bool(WITHOUT_PARAMETERS.match(found["head"])) and found[0].endswith("{}")
        parts = list(CLAUSE.finditer(found["head"]))
        for part, later in zip(parts, [*parts[1:], None]):
            if part[1] == "ensures":
                text = found["head"][part.start():later.start() if later else None]
                yield Clause(source.file.split("/")[0], function, part[2] or "", source.file, text,
                             words_before(source.text, source.text.find(found[0].split("\n")[0])), is_law)


def fields_in(source: Source, record: str) -> Iterator[Clause]:
    """What the fields of a record say."""
    text = source.blocks[record]
    parts = list(FIELD.finditer(text))
    for part, later in zip(parts, [*parts[1:], None]):
        yield Clause(source.file.split("/")[0], record, part[1], source.file,
                     text[part.start():later.start() if later else None], "", False)
