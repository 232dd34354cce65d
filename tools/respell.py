#!/usr/bin/env python3
"""Respell the names that this repository's specs/ and proofs/ define.

Run once, at the top, after the toolchain's own porting script. Definitions and lemmas
go to snake case, facts to camel case; a dash stays where it joins the names of two
definitions. Only .rt and .antt files of crates/ are touched, and only whole names.
"""
import glob
import re

# A dash that joins the names of two definitions stays: these are left as they are.
KEPT = """
count-replicate length-through through-replicate length-indices count-tab gained-tab through-tab
length-tab get_or-take holds-take tab-take gained-set bit-suc bit-pow le-div
""".split()

# What the rule below does not give.
GIVEN = {
    "Not-run": "IsNotRun",
    "Same-pictures": "SamePictures",
    "Trials-decide": "TrialsDecide",
    "All-fair": "AllFair",
    "So-far": "SoFar",
    "bit-and": "bit-bit_and",
    "bit-or": "bit-bit_or",
    "getD-blank": "get_or-blank",
    "getD-refill": "get_or-refill",
    "getD-tab": "get_or-tab",
    "getD-tab-past": "get_or-tab_past",
    "holds-set-other": "holds-set_other",
    "holds-set-same": "holds-set_same",
    "put-bits": "put_row_bits",
    "le-leb": "le_test",
    "and-true": "both_true",
    "and-not": "bit_and_not",
    "and-cond": "bit_and_cond",
    "or-cond": "bit_or_cond",
    "xor-zero": "bit_xor_zero",
    "or-zero": "bit_or_zero",
    "or-none": "bit_or_none",
    "and-look": "bit_and_look",
    "or-look": "bit_or_look",
}

# Each other dash becomes an underscore in these.
NAMES = """
All-fair Not-run Same-pictures So-far Trials-decide after-alike agree-on-all alike-less alike-more
alike-none alike-unchanged all-put and-cond and-look and-not and-table and-true answer-of any-rule
appended-at appended-more appended-none at-m at-word becomes-behind becomes-came becomes-members
becomes-moved becomes-went between-count between-fits bit-after bit-and bit-from bit-high-part
bit-low-part bit-none bit-off bit-on bit-ones bit-or bit-run bit-top bit-zero bits-of-numbers
bits-of-table blank-behind blank-clean blank-fit blank-members both-tried came-is came-none
column-of combine-all combine-in combine-out combined-at count-all count-from count-more count-one
count-others count-uniform domain-of done-cap earlier-assoc earlier-none edge-last enters-same
even-below even-or-odd fill-in first-none flag-bit front-done front-in gained-all gained-from
gained-self gained-uniform getD-blank getD-refill getD-tab getD-tab-past guard-even half-below
half-parts head-named holds-blank holds-none holds-part holds-past holds-run holds-set-other
holds-set-same holds-word in-at insert-all-in insert-in insert-out kind-name le-leb lent-becomes
lent-fit lent-put lent-write lent-write-behind lent-write-fit listed-all look-new lost-set low-one
made-both members-of midway-all midway-more midway-none neither-enters new-bit new-bits next-member
next-never next-none next-some no-advert none-or-all nothing-past number-below old-is one-is one-le
one-small one-step ones-enters ones-tally only-rule or-cond or-look or-none or-only or-table or-zero
over-rows own-long part-alike partly-all partly-at partly-counts partly-same past-cons past-count
past-found past-here past-none past-other past-over pattern-trial picture-of place-uniform
plain-rest pow-times put-at put-bits put-clean put-members put-more put-none put-out put-row
put-split quotient-more ran-from read-bit refused-even remove-in remove-out round-alike round-more
row-shown rule-of run-even run-fit run-word same-agree same-behind same-places second-table set-bits
set-counts set-fit set-only set-uniform settle-even slot-index so-far-is spare-words step-even
step-over subtract-table tab-const tab-is tab-same table-rule tail-plain taken-over tally-add
tally-cap tally-le tally-none tally-same tally-trim tally-word tally-zero tells-like through-at
through-from through-second through-uniform trailing-low trial-alike trial-more trial-none
trials-decide tried-named tried-parts tried-plain tried-row trim-bits trim-row trimmed-none
trimmed-past turned-counts unchanged-alike under-below under-past union-not-table untried-append
untried-both untried-cons untried-more untried-none went-is went-none whole-done within-at
within-found words-for worked-all worked-ends xor-zero
""".split()


def respelled(name):
    return GIVEN.get(name, name.replace("-", "_"))


def main():
    new = {n: respelled(n) for n in NAMES}
    part = r"[\w'′]"
    pattern = re.compile(
        r"(?<![\w'′\-])(?:%s)(?![\w'′]|-%s)" % ("|".join(sorted(map(re.escape, new), key=len, reverse=True)), part)
    )
    files = glob.glob("crates/*/specs/**/*.antt", recursive=True)
    files += glob.glob("crates/*/proofs/**/*.antt", recursive=True)
    files += glob.glob("crates/*/src/**/*.rt", recursive=True)
    for f in sorted(files):
        with open(f, encoding="utf-8") as h:
            old = h.read()
        text = pattern.sub(lambda m: new[m.group(0)], old)
        if text != old:
            with open(f, "w", encoding="utf-8") as h:
                h.write(text)
            print(f)


if __name__ == "__main__":
    main()
