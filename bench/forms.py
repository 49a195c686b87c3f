#!/usr/bin/env python3
"""Writes docs/FORMS.md: for each form of a tree, and for each constructor of the core, the definitions that have a clause for it. With --check it
changes nothing, and ends with 1 where the file isn't what would be written."""
import re
import sys
from pathlib import Path

TOP = Path(__file__).resolve().parent.parent
CRATES, PAGE = TOP / "crates", TOP / "docs" / "FORMS.md"

# what a column tells, the file whose clauses it looks through, and the definitions in it (none: all)
TREES = [
    ("Meaning", "ir_mean/specs/Meaning.antt", ["step"]),
    ("Typing rule", "sj_typing_spec/specs/Rules.antt", ["Meets"]),
    ("Asks for", "sj_infos/specs/Infos.antt", []),
    ("As statements", "sj_desugar_spec/specs/Desugar.antt", ["into"]),
    ("As an expression", "sj_desugar_spec/specs/Desugar.antt", ["expression_of"]),
    ("Built", "agree_body_forms/specs/Built.antt", ["stands"]),
    ("Bytes", "sj_read_spec/specs/Trees.antt", []),
    ("Listing", "sj_text_spec/specs/Spelling.antt", []),
    ("Agreement", "agree_bodies/proofs/Main.antt", []),
]
CORE = [
    ("Template", "sj_emit_expr_spec/specs/Templates.antt", []),
    ("Uses", "sj_emit_expr_spec/specs/Uses.antt", []),
    ("Ranges", "sj_emit_expr_pieces/specs/Ranges.antt", []),
]


def forms():
    text = (CRATES / "sj_trees/specs/Forms.antt").read_text()
    by_form = {form: name for name, form in re.findall(r"^form_of \(?(\w+)[^=]*= \w+ \w+\.(\w+)", text, re.MULTILINE)}
    return [(code, form, by_form[form]) for code, form in re.findall(r"\((\d+), \w+ \w+\.(\w+)\)", text)]


def constructors():
    """The expressions and the statements of the core."""
    text = (CRATES / "sj_core/specs/Terms.antt").read_text()
    for kind in ("Expression", "Statement"):
        block = re.search(rf"^  pub data {kind} : .*\n((?:    .*\n)+)", text, re.MULTILINE)[1]
        for name in re.findall(r"^    (\w+) :", block, re.MULTILINE):
            yield kind, name


def clauses_for(name, column, file, wanted):
    """The clauses of the file that speak of the name: each definition's first one, with its line. A clause has the name on its left side, or, where it
    is read from bytes, on its right side."""
    found = {}
    for number, line in enumerate((CRATES / file).read_text().split("\n"), 1):
        words = line.split()
        if len(words) < 2 or words[0] in ("use", "pub", "abbrev", "unfoldable", "--", "module", "where"):
            continue
        left = line.split(" = ")[0] if " = " in line else line if words[1] == ":" else ""
        text = line if column == "Bytes" else left
        if re.search(rf"(?<![\w.]){name}(?![\w-])", text.strip().partition(" ")[2]) and (not wanted or words[0] in wanted):
            found.setdefault(words[0], number)
    return found.items()


def links(name, column, file, wanted):
    return [f"[{it}:{line}](../crates/{file}#L{line})" for it, line in clauses_for(name, column, file, wanted)][:3]


def table(head, rows, columns):
    yield "| " + " | ".join([*head, *(it[0] for it in columns)]) + " |"
    yield "|---" * (len(head) + len(columns)) + "|"
    for row, name in rows:
        cells = [" ".join(links(name, *column)) or "–" for column in columns]
        yield "| " + " | ".join([*row, *cells]) + " |"


def places(columns):
    return "; ".join(f"{what.lower()}: `{file}`" for what, file, _ in columns)


def page():
    yield "# Where each form is decided"
    yield ""
    yield "`bench/forms.py` writes this page, and `.ci/run` looks whether it is up to date. Each cell names the definitions that have a clause for the form, three at most, with the line in the file of its column; – stands where none has a clause of its own for it."
    yield ""
    yield "## Trees"
    yield ""
    yield f"The files, column by column: {places(TREES)}."
    yield ""
    yield from table(["Code", "Form"], [((code, f"{form} (`{name}`)"), name) for code, form, name in forms()], TREES)
    yield ""
    yield "## The core"
    yield ""
    yield f"What desugaring gives is made of these. The files: {places(CORE)}."
    yield ""
    yield from table(["Kind", "Constructor"], [((kind, f"`{name}`"), name) for kind, name in constructors()], CORE)


text = "\n".join(page()) + "\n"
if "--check" not in sys.argv[1:]:
    PAGE.write_text(text)
elif not PAGE.is_file() or PAGE.read_text() != text:
    sys.exit("docs/FORMS.md isn't up to date: run bench/forms.py")
