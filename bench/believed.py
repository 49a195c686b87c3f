#!/usr/bin/env python3
"""Counts, for each claim of docs/PROVED.md, the lines of definitions in specs/ that a reader has to believe: the definitions that the claim
names, those that they cite, and so on. Comments are counted apart, and import lines and blank lines not at all.

    bench/believed.py                               the table of all claims, and what the headline is made of
    bench/believed.py CRATE.FILE:NAME,.. [--stop NAME,..]   one claim, crate by crate

A definition counts as a whole where its name, one of its constructors or one of its fields is cited. Imports are followed through `pub use`. A
definition after --stop is known by its type alone, so it isn't counted, nor what only it cites. NAME can be *, for all of the file. Types that
are declared in the code aren't counted."""
import re
import sys
from dataclasses import dataclass, field
from pathlib import Path

CRATES = Path(__file__).resolve().parent.parent / "crates"
HEADLINE = "what a link command puts shows what the classes show (`sjslink::run`, `agrees` and `shown`)"
CLAIMS = [
    (HEADLINE, "sjslink.Headline:ShowsTheSame,ShowsPrefix", "IsLinkOf"),
    ("the same with what a link is", "sjslink.Headline:ShowsTheSame,ShowsPrefix", ""),
    ("what `sjslink` writes is this output (`whole`, `front`)", "sjslink.Output:IsWhole,IsFront", ""),
    ("files of judged methods show what the methods show (`judged_files_agree`)", "agree_classes.Judged:* sj_agree.Agrees:* agree_calls.Files:* agree_programs.Linked:* agree_classes.Programs:* outcomes.Agreement:* ir_mean.Shows:* js_mean.Shows:*", ""),
    ("of an accepted folder, files of the needed bodies show what its classes show (`accepted_files_agree`)", "accepted_folders.Laws:*", ""),
    ("what an accepted folder shows is wrong at no bound (`accepted_folders_are_never_wrong`)", "folder_soundness.Laws:*", ""),
    ("what `sjsir` writes is this output (`sjsir::run`)", "sjsir.Output:*", ""),
    ("bytes are the file of a class (`read_class`)", "sj_read_spec.Answers:*", ""),
    ("a class is written as this file (`write_class`)", "sj_write_spec.Written:*", ""),
    ("a module has this text (`print_module`)", "js_tree.Spelling:*", ""),
    ("a text lists a class (`parse_listing`, `print_listing`)", "sj_text_spec.Spelling:*", ""),
    ("the least local rule that is broken (`check_class`)", "sj_local.Broken:*", ""),
    ("ancestors, subtypes, what a call runs (`World`)", "sj_world.Subtypes:* sj_world.Resolution:*", ""),
    ("a method is typed (`check_method`)", "sj_typing_spec.Typed:*", ""),
    ("answers of questions, logs (`sj_ask`)", "sj_ask.Laws:*", ""),
    ("what a body asks for (`infos_of`)", "sj_infos.Infos:*", ""),
    ("what is reachable, and the least of what doesn't resolve (`reach`)", "sj_reach_spec.Reachable:* sj_reach.Answers:*", ""),
    ("which method entries classes have (`base_link`)", "sj_baselink_spec.Entries:*", ""),
    ("which folders are accepted, and what is reported of the others (`judge`)", "folder_judging_spec.Verdicts:* folder_judging.Judging:* folder_judging.Counts:*", ""),
    ("which modules a program is put into (`graph`, `plan`)", "sj_split.Modules:* sj_graph.References:*", ""),
    ("what a command line asks for (`command`)", "sj_words.Earlier:*", ""),
    ("which entries a file says (`entries_of`)", "entries_file.EntriesFile:*", ""),
    ("which methods have the same bytes (`canon`)", "sj_canon.Methods:*", ""),
    ("a generated folder (`folder`)", "sj_gen.Folder:*", ""),
]
PARTS = {
    "the meaning of ECMAScript": ["js_mean"],
    "the meaning of the IR": ["ir_mean", "sure_receivers"],
    "outcomes, arithmetic, and when two meanings agree": ["outcomes", "int_arithmetic", "sj_agree"],
    "trees, names and texts": ["sj_trees", "tree_parts", "sj_names", "sj_units"],
    "the class file": ["sj_read_spec", "exact_place"],
    "the emitted subset and its text": ["js_tree", "sj_mangling"],
    "the local rules": ["sj_local"],
    "typing": ["sj_typing_spec", "sj_ask"],
    "worlds: subtypes and targets": ["sj_world"],
    "reachability, with what bodies ask for": ["sj_infos", "sj_reach_spec", "sj_reach", "worklist"],
    "the stages of a verdict": ["folder_judging_spec", "folder_sizes", "accepted_folders"],
    "words, entries, folders, outputs, and the clause itself": ["sjslink", "sj_words", "entries_file", "sj_outside", "folder_files", "sj_split"],
}
DEFINITION = re.compile(r"^(abbrev|pub|record|data|opaque|mutual|unfoldable|ghost)\b")
NAME = re.compile(r"^(?:abbrev|pub|record|data|opaque|unfoldable)(?:\s+(?:pub|record|data|abbrev|opaque|unfoldable))*\s+(\S+)")
INNER = re.compile(r"^\s+(?:abbrev )?(?:pub )?(?:abbrev )?(?:pub )?(?:data |record )?(\S+) :")
TOKEN = re.compile(r"[^\s(){}\[\],;]+")


@dataclass(eq=False)
class Definition:
    file: Path
    head: str
    module: str | None
    lines: list = field(default_factory=list)
    names: list = field(default_factory=list)

    @property
    def is_mutual(self):
        return "mutual" in self.head.split()

    @property
    def is_type(self):
        return bool(re.search(r"\b(data|record)\b", self.head.split(":")[0]))

    def add(self, lines):
        self.lines += lines
        if self.is_mutual and (found := INNER.match(lines[-1])):
            self.names.append(found[1])


@dataclass
class File:
    definitions: list = field(default_factory=list)
    by_name: dict = field(default_factory=dict)
    imports: dict = field(default_factory=dict)
    modules: dict = field(default_factory=dict)


def handed_on(crate, known={}):
    """The modules that a crate hands on: by the name that they have there, the name of each."""
    if crate not in known:
        lib = CRATES / crate / "specs" / "Lib.antt"
        text = lib.read_text() if lib.is_file() else ""
        found = re.findall(r"^pub use Rattle\.(\S+?)(?: as (\w+))?$", text, re.MULTILINE)
        known[crate] = {name or module.split(".")[-1]: module for module, name in found}
    return known[crate]


def file_named(module):
    """The file of specs/ that a name such as sj_ask.specs.Laws stands for, with what is left of the name."""
    parts = module.split(".")
    while len(parts) > 2 and parts[1] == "specs" and parts[2] in handed_on(parts[0]):
        parts = [*handed_on(parts[0])[parts[2]].split("."), *parts[3:]]
    if len(parts) < 3 or parts[1] != "specs" or parts[2] == "declared":
        return None
    for end in range(len(parts), 2, -1):
        path = CRATES.joinpath(parts[0], "specs", *parts[2:end]).with_suffix(".antt")
        if path.is_file():
            return path, parts[end:]
    return None


def read_import(file, text):
    if names := re.match(r"Rattle\.([\w.+]+?)\.\{(.*)\}\s*$", text):
        for name in filter(None, re.split(r",\s*", names[2])):
            there, here = renamed[1:] if (renamed := [None, *name.split(" as ")]) and len(renamed) == 3 else (name, name)
            file.imports[here] = (names[1], there)
    elif module := re.match(r"Rattle\.([\w.+]+?)(?: as (\w+))?\s*$", text):
        file.modules[module[2] or module[1].split(".")[-1]] = module[1]


def load(path, known={}):
    if path in known:
        return known[path]
    file = known[path] = File()
    module, comments, current = None, [], None
    for line in path.read_text().split("\n"):
        text = line[2:] if module and line.startswith("  ") else line
        if re.match(r"(pub )?use ", line):
            read_import(file, line.split("use ", 1)[1].strip())
            comments, current = [], None
        elif not line.strip():
            comments, current = [], None
        elif line.startswith("module _"):
            module, comments, current = line, [], None
        elif text.startswith("--"):
            comments.append(text)
        elif DEFINITION.match(text):
            module = module if line.startswith(" ") else None
            current = Definition(path, text, module)
            if not current.is_mutual and (found := NAME.match(text)):
                current.names.append(found[1])
            current.add([*comments, line])
            file.definitions.append(current)
            comments = []
        elif file.definitions:
            # (a definition goes on, maybe behind a blank line)
            current = current or file.definitions[-1]
            current.add([*comments, line])
            comments = []
    for it in file.definitions:
        file.by_name.update({name: it for name in it.names})
        for line in it.lines[1:] if it.is_type else []:
            for name in found[1].split() if (found := re.match(r"^\s+(?:pub )?([^:]+?) :", line)) else []:
                file.by_name.setdefault(name, it)
    return file


def in_module(module, name):
    found = file_named(module)
    if not found:
        return None
    file, rest = load(found[0]), found[1]
    if rest and rest[0] in file.by_name:
        return file.by_name[rest[0]]
    if name in file.by_name:
        return file.by_name[name]
    return in_module(*file.imports[name]) if name in file.imports else None


def named(file, name):
    if name in file.by_name:
        return file.by_name[name]
    return in_module(*file.imports[name]) if name in file.imports else None


def cited(definition):
    file = load(definition.file)
    operators = {}
    for name in [*file.imports, *file.by_name]:
        for symbol in filter(None, name.split("◌")) if "◌" in name else []:
            operators.setdefault(symbol, []).append(name)
    code = [line for line in [*definition.lines, definition.module or ""] if not line.strip().startswith("--")]
    for token in {it for line in code for it in TOKEN.findall(re.sub(r'"(\\.|[^"])*"', " ", line))}:
        head, *rest = token.split(".")
        yield named(file, token)
        yield named(file, head)
        if head in file.modules and rest:
            yield in_module(file.modules[head], rest[0])
            yield in_module(f"{file.modules[head]}.{rest[0]}", rest[1]) if len(rest) > 1 else None
        for symbol, names in operators.items():
            for name in names if symbol in token else []:
                yield named(file, name)


def closure(roots, stops):
    left, found = [], {}
    for root in roots:
        module, names = root.split(":")
        file = load(file_named(module.replace(".", ".specs.", 1))[0])
        left += file.definitions if names == "*" else [file.by_name[name] for name in names.split(",")]
    while left:
        it = left.pop()
        if id(it) not in found and not any(name in stops for name in it.names):
            found[id(it)] = it
            left += filter(None, cited(it))
    return found.values()


def counts(found):
    """The lines of definitions crate by crate, and how many lines of comments stand at them."""
    by_crate, comments = {}, 0
    for it in found:
        crate = it.file.relative_to(CRATES).parts[0]
        are_comments = [line.strip().startswith("--") for line in it.lines if line.strip()]
        comments += sum(are_comments)
        by_crate[crate] = by_crate.get(crate, 0) + len(are_comments) - sum(are_comments)
    return sorted(by_crate.items(), key=lambda it: -it[1]), comments


def main(words):
    stops = words.pop(words.index("--stop") + 1).split(",") if "--stop" in words else []
    words = [it for it in words if it != "--stop"]
    if words:
        by_crate, comments = counts(closure(words, stops))
        print(f"{sum(it[1] for it in by_crate)} lines, and {comments} of comments")
        for crate, lines in by_crate:
            print(f"{lines:6} {crate}")
        return
    for claim, roots, stop in CLAIMS:
        by_crate, comments = counts(closure(roots.split(), stop.split(",")))
        print(f"| {claim} | {sum(it[1] for it in by_crate):,} | {comments:,} |")
    by_crate = dict(counts(closure(CLAIMS[0][1].split(), CLAIMS[0][2].split(",")))[0])
    print()
    for part, crates in PARTS.items():
        print(f"| {part} | {sum(by_crate.pop(crate, 0) for crate in crates):,} |")
    print(*[f"| {crate} | {lines} |" for crate, lines in by_crate.items()], sep="\n", end="")


if __name__ == "__main__":
    main(sys.argv[1:])
