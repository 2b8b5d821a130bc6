#!/usr/bin/env python3
"""Prints docs/trust.md: for each promise, which definitions its clauses stand on, found by following names.

    docs/trust.py > docs/trust.md

A definition counts where a clause names it, or another one that counts does. Its lines are those of its paragraph, comments among them.
Definitions of the standard library and declared types (structs and enums of src/) are not counted.
"""
import glob
import os
import re
import sys

os.chdir(os.path.join(os.path.dirname(os.path.abspath(__file__)), ".."))
if len(sys.argv) > 1:
    print(__doc__)
    sys.exit(0 if sys.argv[1] in ("-h", "--help") else 2)

# each promise: its crate, and the functions whose clauses say it
PROMISES = [
    ("after every schedule (`schedule_law`)", "eden_headline", ["schedule_law"]),
    ("after every schedule with imports (`import_law`)", "eden_headline", ["import_law"]),
    ("what changed since (`range_since`, `expand`)", "eden_accumulate eden_ranges", ["range_since", "expand"]),
    ("what a change does (`write` and its kin, `apply`)", "eden_accumulate", ["write", "remove", "rename", "reset", "flush", "remount", "apply"]),
    ("a checkout (`plan`, `checkout`)", "eden_checkout eden_accumulate", ["plan", "checkout"]),
    ("a journal (`add_file`, `add_root`, `flush`)", "eden_journal", ["add_file", "add_root", "flush"]),
    ("the difference of two commits (`diff`)", "eden_treediff", ["diff"]),
    ("the store (`put_tree` and its kin, `lookup`, `list`)", "eden_objects", ["put_blob", "put_tree", "put_commit", "lookup", "list"]),
    ("a store that grows (`Store::import`, `Mount::import`, `share`)", "eden_objects eden_accumulate", ["import", "share", "grown_law", "more_objects_law"]),
    ("a batch of objects (`read_objects`)", "eden_batch eden_objects", ["read_objects", "put_blob", "put_tree", "put_commit"]),
    ("ids (`GitNaming::id_of`)", "eden_ids", ["git_name"]),
    ("messages as bytes (`encode_request`, `decode_reply` and their kin)", "eden_wire", ["encode_request", "encode_reply", "append_reply", "append_asked", "decode_request", "decode_reply", "decode_asked", "request_law", "reply_law", "asked_law"]),
    ("a mirror (`begin`, `deliver`, `round_law`)", "eden_mirror", ["begin", "deliver", "round_law"]),
    ("frames are answered (`serve`, `reply_spelling_law`)", "eden_messages eden_query", ["reply_spelling_law", "serve"]),
    ("an audit (`audit`)", "eden_shared", ["audit"]),
    ("callers behind a lock (`Shared`, `Desk`, `serve_shared`)", "eden_shared", ["change", "hold", "finish", "ask", "ask_patiently", "serve_shared", "serve_shared_writable"]),
    ("a follower that logs vouch for (`vouch`, `merge_law`)", "eden_follow eden_headline", ["step", "deliver", "vouch", "merge_law"]),
    ("a mount of which nothing is logged (`Unlogged`)", "eden_shared", ["change", "hold", "ask", "ask_patiently", "finish", "serve_unlogged"]),
    ("a script (`run`, `run_to_listen`, `run_changes`)", "eden_edend", ["run", "run_to_listen", "run_changes"]),
    ("what a daemon prints (`listen`, `run_daemon`)", "eden_serve", ["listen", "run_daemon"]),
    ("what a client prints of its mirror (`connect_program`)", "eden_connect", ["connect_program"]),
]

HEAD = """# What you must trust

The proofs rest on tools and on definitions.

**Tools.** The kit, with its checker, compiler, the statements of its standard library and its
ported crates (`anyhow` for rigs, `arrayvec`, `atomic_table`, `bstr`, `bytes`, `clap`,
`crossbeam_channel`, `hex`, `indexmap`, `itoa`, `sha1`, `thiserror`, and for tests `rand_core`
and `rand_pcg`); clang and the C library, which build what was proved; and the operating system.

**Definitions.** A contract is worth what its words mean. The table counts, for each promise,
the definitions in crates/*/specs that its clauses use, directly or through others. A definition
that several promises share counts at each. Add to them the declared types that they name, and
the standard library's definitions. Files in a folder `specs/internal` are the implementation's
own: no promise rests on them.

Printed by `docs/trust.py`, which follows names from the clauses of each call.

| promise | definitions | lines, with comments | files |
|---|---|---|---|"""

HEADER = re.compile(r"^(?:abbrev |unfoldable |opaque )?(?:pub )?(?:record |data )?([^\s:({]+)")
USE = re.compile(r"^\s*(?:ghost )?use (Rattle\.[\w.]+)(?:\.\{([^}]*)\}| as (\w+))?;?\s*$")
WORD = re.compile(r"[^\s(){}\[\],;]+")


def imports(text):
    """The names that a file brings in, each with its module and its name there; and the modules that it names by another word."""
    names, modules = {}, {}
    for line in text.splitlines():
        use = USE.match(line)
        if not use:
            continue
        module, listed, alias = use.groups()
        if listed is not None:
            for item in listed.split(","):
                first, _, other = item.strip().partition(" as ")
                names[(other or first).strip()] = (module, first.strip())
        elif alias:
            modules[alias] = module
        else:
            front, _, last = module.rpartition(".")
            names[last] = (front, last)
    return names, modules


class Definitions:
    def __init__(self):
        self.at = {}        # (module, name) -> (file, place of its paragraph)
        self.paragraphs = {}        # (file, place) -> text
        self.scope = {}        # file -> imports
        self.module = {}        # file -> module
        for file in sorted(glob.glob("crates/*/specs/**/*.antt", recursive=True)):
            self.read(file)
        # what a crate hands on of another one's files
        for file in sorted(glob.glob("crates/*/specs/Lib.antt")):
            crate = file.split("/")[1]
            for module in re.findall(r"^pub use (Rattle\.[\w.]+)$", open(file).read(), re.M):
                last = module.rpartition(".")[2]
                handed = {(f"Rattle.{crate}.specs.{last}", name): place for (where, name), place in self.at.items() if where == module}
                self.at.update(handed)

    def read(self, file):
        parts = file[:-len(".antt")].split("/")
        module = ".".join(["Rattle", parts[1], "specs"] + parts[3:])
        text = open(file).read()
        self.scope[file], self.module[file] = imports(text), module
        for place, paragraph in enumerate(re.split(r"\n\s*\n", text)):
            self.paragraphs[file, place] = paragraph
            for line in paragraph.splitlines():
                if re.match(r"(abbrev|unfoldable|opaque|pub) ", line) and not line.startswith("pub mod"):
                    self.at.setdefault((module, HEADER.match(line)[1]), (file, place))

    def resolve(self, word, names, modules, module):
        front, _, last = word.rpartition(".")
        if front in modules and (modules[front], last) in self.at:
            return self.at[modules[front], last]
        for name in (word, word.split(".")[0]):
            if name in names and names[name] in self.at:
                return self.at[names[name]]
            if (module, name) in self.at:
                return self.at[module, name]
        return None

    def reached(self, text, names, modules, module=None):
        """The paragraphs on which this text stands."""
        found, todo = set(), [(text, names, modules, module)]
        while todo:
            text, names, modules, module = todo.pop()
            bare = "\n".join(line for line in text.splitlines() if not line.lstrip().startswith(("--", "//", "use ", "ghost use ")))
            for word in set(WORD.findall(bare)):
                place = self.resolve(word.strip("◌"), names, modules, module) or self.resolve(word, names, modules, module)
                if place and place not in found:
                    found.add(place)
                    file = place[0]
                    todo.append((self.paragraphs[place], *self.scope[file], self.module[file]))
        return found


def clauses(crate, function):
    """The contracts of a crate's public functions of this name, with the imports of their files."""
    for file in sorted(glob.glob(f"crates/{crate}/src/**/*.rt", recursive=True)):
        text = open(file).read()
        for head in re.finditer(rf"^\s*(?:pub )?fn {function}\b", text, re.M):
            end = re.search(r"^\s*\{|\{\}\s*$|;\s*$", text[head.start():], re.M)
            contract = text[head.start():head.start() + end.start()] if end else ""
            if "ensures" in contract:
                yield contract, imports(text)
        # what an implementation of a trait says it is
        for head in re.finditer(rf"^\s*ghost \w+ = \{{[^}}]*\b{function}\b[^}}]*\}};$", text, re.M):
            yield head[0], imports(text)


def lines(definitions, places):
    return sum(1 for place in places for line in definitions.paragraphs[place].splitlines() if line.strip() and not line.startswith("use "))


def count(definitions, places):
    names = {(place, name) for (_, name), place in definitions.at.items() if place in places}
    return len(names), lines(definitions, places), len({file for file, _ in places})


def main():
    definitions = Definitions()
    print(HEAD)
    everything, where = set(), []
    for told, crates, functions in PROMISES:
        places = set()
        for crate in crates.split():
            for function in functions:
                for contract, (names, modules) in clauses(crate, function):
                    places |= definitions.reached(contract, names, modules)
        everything |= places
        where.append((told, places))
        print("| %s | %d | %d | %d |" % (told, *count(definitions, places)))
    print("| **all of them** | %d | %d | %d |" % count(definitions, everything))
    told, places = where[0]
    print(f"\n## Where they are: {told}\n\n| file | definitions | lines |\n|---|---|---|")
    for file in sorted({file for file, _ in places}):
        here = {place for place in places if place[0] == file}
        print("| %s | %d | %d |" % (file[len("crates/"):], *count(definitions, here)[:2]))


main()
