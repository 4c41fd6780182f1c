#!/usr/bin/env python3
"""Respells this repository's definitions and lemmas as today's Rattle writes names.

usage: python3 tools/respell.py      once, at the top of a checkout that port.py has just turned

Words are in snake case. A dash is kept where it joins the names of two definitions.
Names that stand in code, strings, inputs and outputs are left.
"""

import os
import re

# Definitions, and lemmas whose new name is not the old one with `_` for `-`.
NEW = {
    # These two would fall together with the definitions `all_below` and `in_range`.
    "all-below": "checked_below",
    "in-range": "from_ranged",
    "begins-cons": "Begins-cons",
    "begins-onto": "Begins-onto",
    "begins-more": "Begins_more",
    "duplicate-free-cons": "DuplicateFree-cons",
    "duplicate-free-head": "DuplicateFree_head",
    "duplicate-free-tail": "DuplicateFree_tail",
    "getD-evens": "slice_index-evens",
    "getD-order": "slice_index-order",
    "getD-turned": "slice_index-turned",
    "has-reverse": "Has-reverse",
    "has-turned": "Has-turned",
    "inTurn-first": "in_turn_first",
    "inTurn-greedy": "in_turn_greedy",
    "length-inTurn": "length-in_turn",
}

CAMEL = """averageOf badLineText bandOutcome bindersOf bindersWithin bitField countAfter countAt countText countedBy
countedNumber countedOutcome digitAt digitOf digitValue endByEnd endsOf faultNumber hadTurn highEnd holdsZero
inputKnown inputsOf inverseOf kindShape lastPick leafShape namedPlaces operationOf operationWord rangedEnds
residueNumber residueOutcome roundFrom rowText rowsText tickOf tickOutcome twosComplement verdictText withCount
wordRefusal zeroEnd"""

LEMMAS = """again-below all-bytes alternate-greedy as-band at-digit at-end at-points behind-within both-ranged
both-taken both-written by-named by-places cases-place climbs-apart corners-same count-by-named counted-more
counted-within cut-suc digit-ascii digit-back digit-below digits-ascii div-undoes-mul ends-in-order ends-kept
everyone-picked first-bad found-count greedy-by-places has-or-not has-removed head-counts head-length
highest-first highest-greedy highest-is in-order-as kept-or-divided leading-passes leading-stops line-is-text
long-line lowest-first lowest-greedy max-same min-of min-same more-turns names-below nine-each no-more-than
no-shorter of-ends of-first of-second one-order overlaid-is overlaid-more passed-by picked-by-places
picked-from-overlaid picks-from-overlaid product-fits ranged-at size-more some-check still-bad stop-here
stopped-longer take-both turned-places two-writes whole-longer with-word word-is word-length written-more
written-x written-y x-is y-is zero-at"""

for name in CAMEL.split():
    NEW[name] = re.sub(r"[A-Z]", lambda m: "_" + m.group().lower(), name)
for name in LEMMAS.split():
    NEW[name] = name.replace("-", "_")

NAME = re.compile(r"[A-Za-z_][\w'-]*")


def respelled(line):
    if line.lstrip().startswith(("//", "--", "mod ", "pub mod ")):
        return line
    return NAME.sub(lambda m: NEW.get(m.group(), m.group()), line)


def main():
    for folder, dirs, files in os.walk("crates"):
        dirs[:] = sorted(d for d in dirs if d != "out")
        for name in sorted(files):
            if not name.endswith((".rt", ".antt")):
                continue
            path = os.path.join(folder, name)
            with open(path, encoding="utf-8") as f:
                old = f.read()
            new = "".join(respelled(line) for line in old.splitlines(keepends=True))
            if new != old:
                with open(path, "w", encoding="utf-8") as f:
                    f.write(new)


main()
