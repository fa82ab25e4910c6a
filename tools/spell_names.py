#!/usr/bin/env python3
"""Respells this repository's own definitions and lemmas as today's Rattle spells names.

Words of specs/ and proofs/ are in snake case, types and facts in upper camel case:
`badBlocks` becomes `bad_blocks`, `run-keeps` becomes `run_keeps`, `Worked-figures` becomes `WorkedFigures`.
Names that Rattle makes (goals, steps, `x-is`) and names of Rust items keep their spelling.

usage: python3 tools/spell_names.py          at the top, once, after port.py
       python3 tools/spell_names.py --list   prints the names that would change, and changes nothing
"""
import glob
import re
import sys

WORD = r"[A-Za-z_][A-Za-z0-9_'-]*"
TOKEN = re.compile(r"(?<![A-Za-z0-9_'-])" + WORD)
DEFINES = re.compile(
    r"^\s*(?:abbrev |unfoldable |ruleset )?(?:pub )?(?:abbrev |unfoldable |ruleset )?(?:record |data )?"
    r"(" + WORD + r")\s*(?:\([^:]*\)\s*)?:\s(.*)$"
)
SPECIAL = {
    "natAbs-add": "unsigned_abs_add",
    "natAbs-neg": "unsigned_abs_neg",
    "getD-past-front": "get_or_past_front",
    # These would fall together with another name, or with a Rust function of the crate.
    "by-capacity": "by_capacity_lem",
    "by_units": "by_units_lem",
    "no-head": "no_head_lem",
    "owner-from": "owner_from_lem",
    "list_at": "list_at_lem",
    "read-on": "read_on_lem",
    "generators-at": "generators_at_lem",
    "long-enough": "long_enough_lem",
    "more-digits": "more_digits_lem",
    "not-form": "not_form_lem",
    "one-revision-a-slot": "one_revision_a_slot_lem",
    "allSmall": "all_are_small",
    "capacityDue": "due_capacity",
    "fedLine": "line_fed",
    "firstAbove": "first_one_above",
    "firstAbsent": "first_absent_of",
    "firstMissing": "first_missing_of",
    "inBands": "charge_in_bands",
    "installedAt": "installed_power_at",
    "installedCount": "installed_count_fault",
    "openedStation": "station_opened",
    "scheduleAt": "schedule_entry_at",
    "stationCount": "station_count_fault",
}

# Steps of the code that a proof cites behind a dot: Rattle names them after the Rust function.
STEPS = {"more-digits", "not-form"}


def antt_files():
    return sorted(glob.glob("crates/*/specs/**/*.antt", recursive=True) + glob.glob("crates/*/proofs/**/*.antt", recursive=True))


def rt_files():
    return sorted(glob.glob("crates/*/src/**/*.rt", recursive=True))


def code_of(line):
    """The line without its comment."""
    return line.split("-- ")[0] if not line.startswith("--") else ""


def snake(name):
    name = re.sub(r"(?<=[a-z0-9])([A-Z])", r"_\1", name).lower()
    return name.replace("-", "_")


def camel(name):
    return "".join(part[0].upper() + part[1:] for part in name.split("-"))


def spelled(name):
    if name in SPECIAL:
        return SPECIAL[name]
    return camel(name) if name[0].isupper() else snake(name)


def own_names():
    """Every name that a file of specs/ or proofs/ defines, but for goals, invariants and measures, which Rattle names."""
    names = set()
    for path in antt_files():
        for line in open(path, encoding="utf-8"):
            m = DEFINES.match(code_of(line))
            if not m or re.match(r"(goal|need|given)\.", m[2]) or m[1] in ("use", "let", "in", "mod"):
                continue
            names.add(m[1])
    for path in rt_files():
        for line in open(path, encoding="utf-8"):
            m = re.match(r"\s*ghost (" + WORD + r"): ", line)
            if m:
                names.add(m[1])
    return names


def changes():
    return {n: spelled(n) for n in own_names() | set(SPECIAL) if spelled(n) != n}


def respell(text, table):
    def turn(m):
        word = m[0]
        before = text[: m.start()]
        if word in STEPS and before.endswith("."):
            return word
        return table.get(word, word)

    return TOKEN.sub(turn, text)


def main():
    table = changes()
    if "--list" in sys.argv:
        for old in sorted(table):
            print(old, table[old])
        return
    for path in antt_files() + rt_files():
        old = open(path, encoding="utf-8").read()
        new = respell(old, table)
        if new != old:
            open(path, "w", encoding="utf-8").write(new)
    print(f"{len(table)} names respelled")


main()
