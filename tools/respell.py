#!/usr/bin/env python3
"""Respells this repository's own names, once, after port.py: definitions, lemmas, fields and constructors of crates/*/specs and crates/*/proofs.

usage: tools/respell.py [FOLDER]     FOLDER has crates/; without it, the folder above this one

A name in camel case is set in snake case, and a dash between plain words becomes an underscore (the kit's guide: a dash joins two names, a plain word
hangs on by an underscore). Types, modules and names that the kit declares keep their spelling, and so does a name whose new spelling another name has:
those are printed. Functions of src/, strings and comments (but for names in backticks) stay. It proves nothing, and a second run changes nothing."""
import os
import re
import sys

KIT = "/opt/rattle/rattle"
WORD = re.compile(r"[^\s(){}\[\].,;:=λ→×⊎\"«»⌜⌝|@◌+*<>&/\\`!?]+")
DECLARED = re.compile(r"(?m)^[ \t]*(?:(?:pattern|unfoldable|abbrev|pub|axiom|mutual) )*([a-z][^\s(){}:]*(?: [a-z][^\s(){}:]*)*)(?: \{[^}\n]*\})? :(?= |\n|$)")
GOALS = re.compile(r"(?m)^[ \t]*(?:(?:abbrev|pub) )*(\S+) : (?:tie|goal)\.")
# names that begin or end as those of goals do, whose dashes the rule below leaves
GOAL_LIKE = """
    after-init agree-index at-index at-init below-init each-init entry-few entry-is entry-low entry-run entry-there if-case if-ends
    if-first if-found if-marked if-no-2 if-null-case if-null-found if-null-ok if-second if-sort if-type in-arguments in-assigned in-at
    in-called in-callee in-condition in-elements in-else in-fields in-first in-for-body in-for-condition in-for-step in-for-vars in-indexed
    in-initial in-later in-length in-measured in-null in-nullable in-operand in-others in-passed in-position in-range-not-25 in-record
    in-returned in-role in-stmt in-stmts in-target in-test in-value in-var in-vars in-while-body in-while-test in-with-length in-with-value
    loop-done loop-fails loop-goes on-index returns-are returns-at returns-entered returns-in returns-lower returns-marked
    returns-next returns-up run-init typ-index typed-init
"""
LAST = {n: n.replace("-", "_") for n in GOAL_LIKE.split()} | {"from_aTo_b": "from_a_to_b", "from_bTo_a": "from_b_to_a"}
# lemmas and fields that would have the name of a definition: they get another first
FIRST = {
    "all_in": "in_all",
    "below_at": "at_below",
    "block_in": "in_block",
    "built_in": "built_in_kind",
    "count_fits": "count_fit",
    "count_most": "most_counted",
    "distinct_of": "distinct_accepted",
    "each_below": "below_each",
    "field_in": "in_field",
    "found_below": "found_under",
    "is_below": "sub_below",
    "listed_in": "in_list",
    "no_step": "step_left",
    "on_step": "from_step",
    "on_struct": "at_struct",
    "pairs_of": "pairs_told",
    "record_of": "of_record",
    "same_answer": "answer_stays",
    "step_in": "in_step",
    "struct_fields": "fields_of_struct",
    "then_at": "at_then",
    "x_fits": "x_fit",
}
# fields of Layout's Laid and of LawsFile's AllStood, some of which port.py turned already
FORCED = {"list-at": "list_at", "fields-at": "fields_at", "structs-at": "structs_at", "built-ins-at": "built_ins_at", "nodes-at": "nodes_at"}
FIELD = re.compile(r"(?<!shape)\.(x_fits|count_fits|built_in)(?![\w.'-])")
MADE = re.compile(r"^(returns|loop|invariant|decreases|bounds|slice_bounds|overflow|nonzero|offset_bounds|in|in_ok|in_err|if|match|the|entry)(-|$)|-requires(-\d+)?$|-(init|preserved|smaller|index)$")
CODE = {".rt": re.compile(r'(b?"(?:[^"\\]|\\.)*"|\'(?:[^\'\\]|\\.)\'|//[^\n]*)'), ".antt": re.compile(r'("(?:[^"\\]|\\.)*"|--(?=[ \n])[^\n]*)')}
BARE = re.compile(r"(?<![\w.'-])(?:" + WORD.pattern + ")")
FROM_KIT = re.compile(r"(?m)^(?:ghost )?use (?!Rattle\.(?!std|core|io|libc|os)\w)[\w.']+\.\{([^}]*)\}")
TICKED = re.compile(r"`([^`\n]+)`")


def files(top):
    for folder, dirs, names in os.walk(os.path.join(top, "crates")):
        dirs[:] = sorted(d for d in dirs if d != "out")
        for name in sorted(names):
            if name.endswith((".rt", ".antt")):
                yield os.path.join(folder, name)


def pieces(path, text):
    """The text in turn: code, then a string or a comment."""
    return CODE[os.path.splitext(path)[1]].split(text)


def words(path, text):
    for i, piece in enumerate(pieces(path, text)):
        if i % 2 == 0:
            yield from WORD.findall(piece)


def snake(name):
    name = re.sub(r"(?<=[a-z0-9])([A-Z])(?=[a-z]|$|[-_0-9'])", lambda m: "_" + m.group(1).lower(), name)
    name = re.sub(r"(?<=[a-z0-9])([A-Z]+)(?=[A-Z][a-z]|$|[-_0-9'])", lambda m: "_" + m.group(1).lower(), name)
    return name


def kit_words():
    found = set()
    for top in (os.path.join(KIT, d) for d in os.listdir(KIT)):
        for folder, dirs, names in os.walk(top):
            for name in names:
                if name.endswith(".antt"):
                    with open(os.path.join(folder, name), encoding="utf-8", errors="replace") as f:
                        found.update(m for group in DECLARED.findall(f.read()) for m in group.split())
    return found


def last(texts):
    """Turns the names of LAST, but where they are a step's (`c.if-first`), and writes the files."""
    for p, t in texts.items():
        parts = pieces(p, t)
        for i, x in enumerate(parts):
            if i % 2 == 0:
                parts[i] = re.sub(r"(?<![\w'-])(?<!\bc\.)(?<!goal\.)(?:" + WORD.pattern + ")", lambda m: LAST.get(m.group(0), m.group(0)), x)
            elif not x.startswith(('"', "'", 'b"')):
                parts[i] = TICKED.sub(lambda m: "`" + WORD.sub(lambda w: LAST.get(w.group(0), w.group(0)), m.group(1)) + "`", x)
        new = "".join(parts)
        with open(p, "w", encoding="utf-8") as f:
            f.write(new)


def main():
    top = sys.argv[1] if len(sys.argv) > 1 else os.path.join(os.path.dirname(os.path.abspath(__file__)), "..")
    texts = {p: open(p, encoding="utf-8").read() for p in files(top)}
    if not any("builtInAt" in t for t in texts.values()):
        last(texts)
        return
    for p, t in texts.items():
        if p.endswith(".antt"):
            parts = pieces(p, t)
            parts[::2] = [FIELD.sub(lambda m: "." + FIRST[m.group(1)], BARE.sub(lambda m: FIRST.get(m.group(0), m.group(0)), x)) for x in parts[::2]]
            texts[p] = "".join(parts)
    declared, goals, used = set(), set(), set()
    for p, t in texts.items():
        used.update(words(p, t))
        if p.endswith(".antt"):
            bare = "".join(x for i, x in enumerate(pieces(p, t)) if i % 2 == 0)
            declared.update(n for group in DECLARED.findall(bare) for n in group.split())
            goals.update(GOALS.findall(bare))
    kit = kit_words()
    brought = {w for p, t in texts.items() for line in FROM_KIT.findall(t) for w in WORD.findall(line)}
    turned, kept = {}, []
    for name in sorted(used | declared):
        if name in FORCED or not re.match(r"[a-z]", name) or name in brought or (name in kit and name not in declared):
            continue
        new = snake(name)
        if name in declared and "-" in new and name not in goals and not MADE.search(name):
            new = new.replace("-", "_")
        if new == name:
            continue
        turned[name] = new
    taken = set(brought)
    for p, t in texts.items():
        if p.endswith(".antt"):
            taken.update(w for x in pieces(p, t)[::2] for w in BARE.findall(x))
    rivals = {}
    for name, new in turned.items():
        rivals.setdefault(new, []).append(name)
    for new, names in sorted(rivals.items()):
        free = new not in taken or new == "built_ins"  # a field of two records
        if free and len(names) == 1:
            continue
        # a definition in camel case comes first; a lemma of the same words keeps its dash
        first = [n for n in names if snake(n) == new][:1] if free else []
        for name in names:
            if name in first:
                continue
            plain = snake(name)
            if plain != name and plain != new and plain not in taken and plain not in rivals:
                turned[name] = plain
            else:
                kept.append((name, new))
                del turned[name]
    turned.update(FORCED)
    for p, t in texts.items():
        parts = pieces(p, t)
        for i, x in enumerate(parts):
            if i % 2 == 0:
                parts[i] = WORD.sub(lambda m: turned.get(m.group(0), m.group(0)), x)
            elif not x.startswith(('"', "'", 'b"')):
                parts[i] = TICKED.sub(lambda m: "`" + WORD.sub(lambda w: turned.get(w.group(0), w.group(0)), m.group(1)) + "`", x)
        new = "".join(parts)
        texts[p] = new
    last(texts)
    print(f"{len(turned)} names turned")
    for name, new in kept:
        print(f"kept: {name} (another name is {new})")


if __name__ == "__main__":
    main()
