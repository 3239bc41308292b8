#!/usr/bin/env python3
"""Brings the repository's own definitions and lemmas to the spelling of today's Rattle, once, after port.py.

Types and facts are in upper camel case, all else in snake case; a dash stays where it joins two names, as in
mul-add. Only whole names are turned, in .antt files and in the clauses of .rt files; names that Rattle makes
(goals and steps of a proof) are left to the check.

    python3 tools/respell.py        (at the top)
"""

import glob
import re

# facts: upper camel case
FACTS = """
Absolute-of-two Admitted-of-two Best-image-of-two Best-of-two Flat-of-two Fraction-of-two Lagrangian-between
No-image-below No-image-better-by-more Readings-of-two Refused-of-two Saddle-of-six Saddle-of-two Saddle-theorem
Six-pixels Tells-first-outside Worked-examples
"""

# definitions and lemmas: snake case
WORDS = """
absolute-driven absolute-lawful accepted-exactly accepted-if-fits add-fits admitted-at admitted-from-none answer-fits
answering-carried answering-density answering-duals-fit answering-image answering-image-fits answering-number
answering-numbers answering-slope answering-slopes at-even at-every-place at-odd back-projection best-bound best-fits
best-objective both-none bound-below bound-is bound-is-dual-value bound-reached by-pixels by-signed-limit carried-low
clip-at columns-is conjugate-answer conjugate-is conjugate-modest cost-answer cost-is cost-modest count-is counts-low
crossed-once data-cost dense-from-none densities-none densities-within density-product density-term density-within
difference-even difference-odd distance-in down-difference down-exchange duals-fit each-entry each-pixel each-ray
ends-flat entries-fault entry-exchange entry-fits entry-inside entry-is entry-pull entry-within faultless-since
few-pixels few-rays first-from first-none first-outside first-some-found first-some-more first-some-start
fits-if-accepted follows-at follows-last has-below has-difference highest-is image-fits lagrangian-at
lagrangian-between largest-count largest-is largest-le largest-more largest-reading largest-start last-start lawful-of
lawful-ray le-largest least-product left-fits left-low length-is lighter-all lighter-more load-fault lowest-is
mapped-none maybe-low min-left min-right misfit-lawful modest-size no-entry no-fault no-image-below-bound no-ray
no-rays no-reading none-better none-checked none-from-admitted none-from-unset none-higher none-lower not-missing
number-within objective-above objective-at objective-is-primal-value objective-reached one-is pixel-cap pixel-cap-low
pixel-count pixel-le pixel-light pixel-rises pixel-weight pixels-of prev-no prev-yes price-is price-of product-fits
product-low projected-more pull-more pull-of pulled-more ray-at ray-cap ray-cap-low ray-cost ray-cost-is ray-cost-size
ray-count ray-entries ray-exchange ray-fault ray-is ray-lawful ray-more ray-numbers ray-numbers-length ray-pull
ray-share ray-sum ray-sum-low ray-term ray-term-more ray-weight ray-weight-at rays-apart rays-exchange rays-le
read-start reading-cap reading-cap-low reading-low reading-term reading-within readings-fault readings-product
residual-reached right-difference right-exchange right-in rough-low roughness-at saddle-theorem scan-lawful
search-found search-more search-none settings-fault sign-size signed-limit-low six-absolute six-entries six-image
six-loads six-means six-numbers six-rays six-settings six-slopes six-square six-thirds sized-from-none sizes-none
sizes-within slope-at slope-from-above slope-from-left slope-le slope-limit slope-limit-low slope-share slope-within
slopes-exchange slopes-le slopes-length slopes-within some-pixels spans-nowhere spans-there square-driven square-is
square-lawful square-modest square-of start-follows start-low start-within starts-end starts-fault starts-length
starts-rise step-there stored-meaning stored-span strength-is subgradient-answer table-entry table-lawful
table-meaning table-ray tolerance-is total-variation two-absolute two-lawful two-loads two-means two-rays
two-rays-lawful two-settings two-square variation-in-row verdict-of weighed-if-accepted weight-at weight-here
weight-low weight-more weight-so-far weights-low whole-fits whole-low with-left with-sign with-slopes
image-length image-within objective-of ray-numbers-within residual-of residual-size term-low
sumTo-cong sumTo-le sumTo-more sumTo-only sumTo-pairs sumTo-shift sumTo-split sumTo-swap
"""

# a dash that joins two names stays
JOINED = {"sumTo-add": "sum_to-add", "sumTo-mul": "sum_to-mul", "sumTo-sub": "sum_to-sub", "sumTo-zero": "sum_to-zero", "mul-sumTo": "mul-sum_to"}

NAME = re.compile(r"[^\s(){}\[\];,.λ:|↦\"@`]+")


def camel(name):
    return "".join(part[0].upper() + part[1:] for part in name.split("-"))


def snake(name):
    return name.replace("sumTo", "sum_to").replace("-", "_")


TABLE = {name: camel(name) for name in FACTS.split()} | {name: snake(name) for name in WORDS.split()} | JOINED


def respelled(text):
    return NAME.sub(lambda found: TABLE.get(found.group(), found.group()), text)


if __name__ == "__main__":
    assert len(set(TABLE.values())) == len(TABLE)
    for kind in ("specs/**/*.antt", "proofs/**/*.antt", "src/**/*.rt"):
        for path in glob.glob(f"crates/*/{kind}", recursive=True):
            with open(path, encoding="utf-8") as file:
                old = file.read()
            new = respelled(old)
            if new != old:
                with open(path, "w", encoding="utf-8") as file:
                    file.write(new)
