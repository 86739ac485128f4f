#!/usr/bin/env python3
"""Spells the repository's own definitions and lemmas as today's Rattle does: words in snake case, facts in camel case.

usage: tools/respell.py FOLDER      a repository of the older spelling that the kit's port.py has turned

It goes over the .rt and .antt files below crates/. Functions of src/ and exported C names have no capitals inside, and keep their names.
A part of a name (dashes join the parts) that begins small and has a capital inside turns: kindAt -> kind_at, EverywhereAll-growAll -> EverywhereAll-grow_all.
OTHER has the names that turn otherwise, each with the paths below crates/ where it does. Run it once.
"""
import os
import re
import sys

WORD = re.compile(r"(?<![\w'-])[A-Za-z_][\w'-]*")
CAPITAL = re.compile(r"(?<=[a-z0-9])[A-Z]")

# old, new, the beginnings of the paths where it turns
OTHER = [
    # lemmas that would fall together with a definition: the kit's port.py had drawn their parts together
    ("blocks_end", "blocks-end", ["bindings/", "occurrences/", "ordered/", "tests/"]),
    ("marks_then", "marks-then", ["meaning/"]),
    ("one_place", "one-place", ["sight/", "exports/"]),
    ("plain_rows", "plain-rows", ["bindings/", "sentences/"]),
    # facts
    ("adds", "AddsHere", ["sight/proofs/Keep.antt", "sight/proofs/Good.antt"]),
    ("hits", "HitsHere", ["sight/proofs/Keep.antt", "sight/proofs/Good.antt"]),
    ("owned", "Owned", ["sight/proofs/Steps.antt"]),
    ("Met-or", "MetOr", ["meaning/proofs/ByEntry.antt"]),
    ("Kept-by", "KeptBy", ["meaning/proofs/Told.antt"]),
    # a word that is gone; sisters of lemmas that kept their dash
    ("get_d_any", "get_or-any", ["tests/proofs/Parts.antt"]),
    ("row_one", "row-one", ["sentences/", "calls/"]),
    ("list_same", "list-same", ["calls/"]),
    ("rows_stay", "rows-stay", ["calls/"]),
    # module aliases
    ("term_of", "in_term", ["occurrences/"]),
    ("head_of", "in_head", ["occurrences/proofs/CollectCases.antt"]),
    ("type-of", "in_type", ["occurrences/proofs/CollectCases.antt"]),
    ("Pred-of", "in_pred", ["occurrences/proofs/CollectCases.antt"]),
    ("if-of", "in_if", ["occurrences/proofs/CollectCases.antt"]),
    ("then-of", "in_then", ["occurrences/proofs/CollectCases.antt"]),
    ("stmt-of", "in_stmt", ["occurrences/proofs/CollectCases.antt"]),
    ("decl-of", "in_decl", ["occurrences/proofs/CollectRules.antt"]),
    ("app-head", "app_head", ["typed/proofs/Enums.antt", "typed/specs/Nodes.antt", "bindings/proofs/Cases.antt"]),
    ("type-expr", "type_expr", ["typed/proofs/Enums.antt", "typed/specs/Nodes.antt"]),
    ("pred-expr", "pred_expr", ["typed/proofs/Enums.antt", "typed/specs/Nodes.antt"]),
    ("if-atom", "if_atom", ["typed/proofs/Enums.antt", "typed/specs/Nodes.antt"]),
    ("then-atom", "then_atom", ["typed/proofs/Enums.antt", "typed/specs/Nodes.antt"]),
    ("opt-name", "opt_name", ["typed/specs/Nodes.antt"]),
    ("opt-term", "opt_term", ["typed/specs/Nodes.antt"]),
    ("unfolding-law", "unfolding_law", ["ast/proofs/Acceptance.antt"]),
    # fields and constructors
    ("nodes-are", "nodes_are", [""]),
    ("operands-are", "operands_are", [""]),
    ("names-are", "names_are", [""]),
    ("bytes-are", "bytes_are", [""]),
    ("len-fits", "len_fits", [""]),
    ("none-earlier", "none_earlier", [""]),
    ("rising-all", "rising_all", [""]),
    ("way-is", "way_is", [""]),
    ("first-is", "first_is", ["environment/proofs/Leaving.antt"]),
    ("heads-long", "heads_long", ["names/"]),
    ("next-long", "next_long", ["names/"]),
    ("by-rule", "by_rule", ["occurrences/", "sight/"]),
    ("no-list", "no_list", ["scopes/proofs/Clashing.antt"]),
    ("a-list", "a_list", ["scopes/proofs/Clashing.antt"]),
    ("scopes-are", "scopes_are", ["scopes/"]),
    ("symbols-are", "symbols_are", ["scopes/"]),
]
# modules under another name
MODULES = re.compile(r"«(promises|\w+[-_]spec)»")


def snake(part):
    if not part[:1].islower() or not CAPITAL.search(part):
        return part
    return re.sub(r"[A-Z]", lambda m: ("_" if m.start() and part[m.start() - 1] != "_" else "") + m[0].lower(), part)


def turned(text, path):
    other = {old: new for old, new, starts in OTHER if any(path.startswith(s) for s in starts)}

    def word(m):
        w = m[0]
        return other[w] if w in other else "-".join(snake(p) for p in w.split("-"))

    text = MODULES.sub(lambda m: m[1][:-5].capitalize() + "Spec" if m[1].endswith("spec") else m[1].capitalize() + "Spec", text)
    return WORD.sub(word, text)


def main(argv):
    if len(argv) != 1:
        print(__doc__)
        return 2
    inside = os.path.join(argv[0], "crates")
    for folder, dirs, files in os.walk(inside):
        dirs[:] = sorted(d for d in dirs if d != "out")
        for name in sorted(files):
            if name.endswith((".rt", ".antt")):
                path = os.path.join(folder, name)
                with open(path, encoding="utf-8") as f:
                    was = f.read()
                now = turned(was, os.path.relpath(path, inside))
                if now != was:
                    with open(path, "w", encoding="utf-8") as f:
                        f.write(now)
    return 0


if __name__ == "__main__":
    raise SystemExit(main(sys.argv[1:]))
