"""Puts a run into a page of one file, for tools/page and tools/serve.

What a lesson says is set by the library `markdown` of Python, where it is installed, and else by what the lessons use of
that language; tools/serve-check compares the two.
"""
import html
import importlib
import json
import re
from pathlib import Path
from typing import Any, Dict, Optional, Sequence, Tuple

try:
    markdown: Any = importlib.import_module("markdown").markdown
except ImportError:
    markdown = None  # Debian has it as python3-markdown

PARTS = Path(__file__).resolve().parent / "page-parts"
MODULES = ("fold", "chart", "pack", "view")
EXPORT = re.compile(r"^export (?=(?:class|function|async function|const) (\w+))", re.M)
IMPORT = re.compile(r"^import (\{[^}]*\}) from \"\./(\w+)\.mjs\";$", re.M)


def part(name: str) -> str:
    return (PARTS / name).read_text(encoding="utf-8")


def module(name: str) -> str:
    """A module as a function that is called at once and gives what the module exports: one script then holds them all."""
    text = part(f"{name}.mjs")
    exports = ", ".join(EXPORT.findall(text))
    body = IMPORT.sub(r"const \1 = \2;", EXPORT.sub("", text))
    return f"const {name} = (() => {{\n{body}\nreturn {{{exports}}};\n}})();\n"


def set_words(text: str) -> str:
    """The words of a piece of a lesson: what stands in backticks is code, and of a link its words are left."""
    words = re.sub(r"!?\[([^]]*)\]\([^)]*\)", r"\1", html.escape(" ".join(text.split()), quote=False))
    return re.sub(r"`([^`]*)`", r"<code>\1</code>", words)


def set_simply(text: str) -> str:
    """A text of a lesson without the library: headings, paragraphs, lists and blocks of code are all that it may have."""
    parts = []
    for number, block in enumerate(re.split(r"^```\w*(?:\n|\Z)", text, flags=re.M)):
        if number % 2:
            parts.append(f"<pre><code>{html.escape(block, quote=False)}</code></pre>")
            continue
        for piece in filter(None, map(str.strip, re.split(r"\n\s*\n", block))):
            heading, items = re.match(r"(#+) ", piece), re.split(r"^- ", piece, flags=re.M)[1:]
            if heading:
                level = len(heading[1])
                parts.append(f"<h{level}>{set_words(piece[level:])}</h{level}>")
            elif piece.startswith("- "):
                parts.append(f"<ul>{''.join(f'<li>{set_words(item)}</li>' for item in items)}</ul>")
            else:
                parts.append(f"<p>{set_words(piece)}</p>")
    return "\n".join(parts)


def as_html(text: str) -> str:
    """A text of a lesson as it is shown, without links, which lead to files beside it."""
    if not markdown:
        return set_simply(text)
    return re.sub(r"</?a\b[^>]*>|<img\b[^>]*>", "", str(markdown(text, extensions=["fenced_code", "tables"])))


def page(name: str, texts: Sequence[str], lessons: Sequence[Tuple[str, str]] = (), told: Tuple[str, str] = ("", ""),
         course: Optional[Dict[str, Any]] = None) -> str:
    """The page of a run: its name, and the texts of script, schedule and trace. One that is served has names and titles of
    the lessons, for its list, and what the one that it shows says, with its answer; of the course the paths and the
    questions, and the question that it asks."""
    script, schedule, trace = texts
    is_served = bool(lessons)
    data = {"name": name, "script": script, "schedule": schedule, "trace": trace, "lessons": list(lessons),
            "isServed": is_served, "about": told[0], "answer": told[1],
            "set": [as_html(text) for text in told], "paths": [], "questions": [], "quiz": None, **(course or {})}
    values = {
        "@TITLE@": html.escape(f"{name}: a run of hipc"),
        "@CONNECT@": "'self'" if is_served else "'none'",
        "@STYLE@": part("page.css"),
        "@SCRIPT@": "".join(map(module, MODULES)),
        # no text of the run can end the element in which it stands
        "@DATA@": json.dumps(data).replace("<", "\\u003c"),
    }
    return re.sub("|".join(values), lambda found: values[found[0]], part("page.html"))
