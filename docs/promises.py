#!/usr/bin/env python3
"""Prints docs/promises.md: of each crate that ships, and of the oracle, each public call, the first sentence of its comment, and its clauses.

    docs/promises.py > docs/promises.md
"""
import glob
import os
import re
import sys
import textwrap

os.chdir(os.path.join(os.path.dirname(os.path.abspath(__file__)), ".."))
if len(sys.argv) > 1:
    print(__doc__)
    sys.exit(0 if sys.argv[1] in ("-h", "--help") else 2)

HEAD = """# What is promised, call by call

Printed by `docs/promises.py` from the contracts in crates/*/src.

Every function, for every input, is safe (no index out of range, no overflow, no undefined
behaviour), returns, and meets its contract. A call that allocates may return `NoMemory` instead
of any answer; no clause can say that it comes only if memory is short. A clause without a name
is listed as "the answer". What an implementation of a trait promises is said at the trait.

## In short

- **A mirror that fell behind finds out.** `schedule_law`, and `import_law` with imports:
  `covered`, `told`, `at_head`, `together`, `places`, `values` (docs/theorem.md).
- **A poll names each changed path and no other, each with its mark; or the position is
  refused**, for the first cause that holds. `Mount::range_since`, `expand`: `tells`,
  `comparable`, `commits`; `accepts`, `refuses`.
- **A change does what it says, or is refused for the first cause that holds and changes
  nothing.** `Mount::write` and its kin, `Mount::apply`: `answers`, `stands`, `refuses`,
  `unchanged`.
- **A checkout does to each path what its mode says, and reports its conflicts.** `plan`,
  `Mount::checkout`: `files`, `conflicts`, `unclean`.
- **A journal holds what its limit pays for, and refuses no position within that.**
  `Journal::add_file`, `add_root`, `flush`: `stands`, `exhausted`.
- **The difference of two commits is exact, kinds included.** `diff`: `paths`, `fault`.
- **Each id names one object, forever; a commit's files are those of Git's format; ids are
  Git's.** `Store::put_tree` and its kin, `lookup`, `list`: `PutGives`, `TreeGives`,
  `commit_rows`; `GitNaming::id_of`: `git_name`.
- **A store grows while it is mounted**: several objects are put, or none and the first fault is
  reported with its place. `Store::import`, `Mount::import`: `ok`, `err`, `refuses`; `answers`,
  `stands`; `grown_law`, `more_objects_law`.
- **A mirror takes a reply only if it belongs to its round, and moves only when the round has
  all that was listed.** `Mirror::deliver`, `deliver_owned`: `ok`, `err`; `Mirror::round_law`:
  `last`.
- **Each reply has exactly one spelling, of at most 16 MiB, and is read back as itself.**
  `reply_spelling_law`, `reply_to`, `answer_request`: `spelled`; `decode_reply`: `all`.
- **A request is read with its patience, if it has one, or the first fault is reported.**
  `decode_asked`: `spelled`, `all`, `exact`; `append_asked`: `read_back`, `exact`; `asked_law`.
- **The frames written are the right replies to the frames read, in order, each asked once.**
  `serve`: `ends`, `asks`, `stands`.
- **An audit says exactly whether callers' logs agree with the stored history.** `audit`:
  `agree`, `noted`, `fault`, `excluded`; `Audited::mount`: `history`.
- **After an audit, a follower that the logs vouch for has a mirror faithful to the mount.**
  `follows`: `faithful`, `at_head`, `fault`; `Audited::opening_law`.
- **Callers share a mount**: each call runs under the lock, takes the next ticket, and is
  answered as a mount that has taken one call fewer answers it. A call that runs out of memory
  takes no ticket. `Shared::change`, `hold`, `finish`: `answer`, `held`, `ticket`, `share`,
  `unchanged`; `count`.
- **A caller's log grows by the call that it made, with its answer or none.** `Desk::change`,
  `ask`, `ask_patiently`: `log`, `answer`, `left`; `serve_shared`, `serve_shared_writable`: `ends`.
- **A change that a frame asks for is made once, and a client can decode how it ended.**
  `serve_writable`: `asks`; `serve_shared_writable`, `serve_unlogged`: `ends`; `append_done`:
  `spelled`; `answer_law`.
- **A thread never loads a number below one that it has loaded or raised.** `HeadWord::load`,
  `raise`, `split`, `join`: `risen`, `seen`, `same`, `kept`.
- **A follower's mirror is what its notes make, and `vouch` says exactly whether logs vouch for
  them.** `Follower::step`, `deliver`: `stepped`, `noted`, `delivered`; `vouch`: `vouched`,
  `fault`, `excluded`, `merges`; `merge_law`: `schedule`, `world`, `mirror`, `covered` and its
  kin.
- **Objects are put as Git prints them, and the first fault is exact.** `read_objects`: `ends`.
- **A script prints what its lines mean, also up to `listen`**, which opens their mount. After it
  each line makes its change, once and in order, up to the first that changes no mount. `run`,
  `run_over`, `run_to_listen`, `run_changes`: `ends`.
- **A mount of which nothing is logged answers each frame once, in order, as it replies after
  exactly some number of the changes that were made.** `Unlogged::change`: `made`, `share`;
  `Unlogged::ask`, `ask_patiently`: `told`, `spelled`; `Unlogged::finish`: `reached`;
  `serve_unlogged`: `ends`. No clause says for how long a reply waits.
- **What a daemon writes is exact, however it ends: what its script prints up to `listen`, its
  port or socket, and, after a number of connections, what an audit found.** `listen`,
  `serve_listener`, `run_daemon`, `serve_program`: `ends`; `listen`, `run_daemon`: `read`,
  `turns_spent`.
- **What `follow connect` prints is where its mirror is and what it holds**, by the replies that
  came. It ends without a connection only if 16 of a round were asked for. `keep_mirror`: `placed`,
  `unplaced`, `cut_off`; `connect_program`: `placed`, `unplaced`, `rounds`.
"""
OWNER = re.compile(r"^impl(?:<.*?>)? (\w+)(?:<.*>)? \{$|^pub trait (\w+)")
FUNCTION = re.compile(r"^( *)(pub )?fn (\w+)")
CLAUSE = re.compile(r"^ *(ensures|requires)(?: (\w+))? \{")


def shipped():
    """The crates of crates.txt, lowest first, without those of tests and measures and without programs."""
    names = [re.match(r"\w+", line)[0] for line in open("crates.txt") if re.match(r"\w", line)]
    return [name for name in names if name.startswith("eden_")]


def handed_out(crate):
    """The names that a library's root makes public."""
    text = open(f"crates/{crate}/src/lib.rt").read()
    uses = re.findall(r"^pub use (?:crate::)?(\w+)::(?:\{([^}]*)\}|(\w+))", text, re.M)
    own = [listed or single for module, listed, single in uses if re.search(rf"^(?:pub )?mod {module};", text, re.M)]
    return {name.strip() for names in own for name in names.split(",")}


def sentence(comment):
    """The first sentence of some comment lines."""
    paragraph = " ".join(line.strip() for line in comment).split("  ")[0]
    end = re.search(r"[.:](?= [A-Z`]|$)", paragraph)
    return paragraph[:end.start()] if end else paragraph


def contract(lines):
    """The names of the clauses of the function that begins with these lines, and those of its conditions."""
    found = {"ensures": [], "requires": []}
    indent = len(lines[0]) - len(lines[0].lstrip())
    for line in lines:
        clause = CLAUSE.match(line)
        if clause:
            found[clause[1]].append(clause[2])
        if line.rstrip() == " " * indent + "{" or line.startswith(" " * indent + "}"):
            break
        if line.endswith((";", "{}")) or (not clause and line.endswith(" {") and "->" in line):
            break
    return found["ensures"], found["requires"]


def named(clauses, otherwise):
    """Clauses by their names, those without one together."""
    told = [f"`{name}`" for name in dict.fromkeys(clauses) if name]
    return ", ".join(([otherwise] if None in clauses else []) + told)


def calls(file, names):
    """Each public call of a file, with what its comment says first, and its clauses."""
    lines = open(file).read().split("\n")
    owner, public, comment = None, False, []
    for place, line in enumerate(lines):
        opened = OWNER.match(line)
        if opened:
            owner, public = opened[1] or opened[2], bool(opened[2])
        elif line == "}":
            owner, public = None, False
        elif line.startswith("#[cfg(test)]"):
            return
        function = FUNCTION.match(line)
        inside = function and len(function[1]) == 4 and owner in names
        alone = function and not function[1] and function[3] in names
        if function and (function[2] or public) and (inside or alone):
            ensures, requires = contract(lines[place:])
            name = f"{owner}::{function[3]}" if inside else function[3]
            clauses = named(ensures, "the answer")
            conditions = named(requires, "a condition")
            yield name, sentence(comment), clauses + (f"; under {conditions}" if conditions else "")
        stripped = line.strip()
        if stripped.startswith("///"):
            comment.append(stripped[3:] or "  ")
        elif not stripped.startswith(("#[", "using(", ")]")):
            comment = []


def main():
    print(HEAD)
    for crate in shipped():
        head = [line[3:] for line in open(f"crates/{crate}/src/lib.rt") if line.startswith("//!")]
        print(f"## {crate}\n")
        print(textwrap.fill(sentence(head) + ".", 98), end="\n\n")
        names = handed_out(crate)
        rows = [row for file in sorted(glob.glob(f"crates/{crate}/src/**/*.rt", recursive=True)) for row in calls(file, names)]
        for name, said, listed in rows:
            print(*textwrap.wrap(f"`{name}`: {said} ({listed})", 98, initial_indent="- ", subsequent_indent="  ",
                                 break_long_words=False, break_on_hyphens=False), sep="\n")
        print()


main()
