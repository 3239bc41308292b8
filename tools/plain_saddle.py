#!/usr/bin/env python3
"""The saddle theorem on random small slices, with nothing shared with the crates.

For each slice: the bound is under the Lagrangian and the Lagrangian under the objective, for images whole and in
fractions; the dual numbers that answer an image reach its objective, and the image that answers dual numbers
reaches their bound. Then the same with one definition turned at a time, as the must-fail edits of the crate
`problem` turn it: each must break the theorem. It is no part of the gate.

    python3 tools/plain_saddle.py [SLICES]      (2000 if left out)
"""

import random
import sys

from plain_judge import absolute, adjoint, answering_duals, answering_image, bound, differences, lagrangian, objective, sign, square

TURNED = ("bound_without_highest", "slope_sign", "slope_past_the_end", "answering_image")


def holds(random, turned):
    """Whether the theorem holds of one random slice, image, dual numbers and fraction, with one definition turned."""
    W, H = random.randint(1, 4), random.randint(1, 4)
    N = W * H
    lowest = random.randint(0, 5)
    highest = lowest + random.randint(0, 6)
    strength = random.randint(0, 4)
    rays = []
    for _ in range(random.randint(0, 5)):
        pixels = sorted(random.sample(range(N), random.randint(0, min(4, N))))
        rays.append(([(j, random.randint(1, 3)) for j in pixels], random.randint(0, 60)))
    slope = random.choice([0, 1, 2, 3])
    misfit, end, answer = (absolute(slope), slope, lambda r: slope * sign(r)) if slope else (square(), 40, lambda r: r)
    d = random.randint(1, 4)
    v = [random.randint(d * lowest, d * highest) for _ in range(N)]
    u = [random.randint(lowest, highest) for _ in range(N)]
    p = [random.randint(-end, end) for _ in rays]
    past = 1 if turned == "slope_past_the_end" else 0
    limits = [past if x is None else strength for x in differences(W, H, u)]
    q = [random.randint(-limit, limit) for limit in limits]

    w = adjoint(W, H, rays, p, q)
    if turned == "slope_sign":
        w = [x - 2 * q[2 * (j - 1)] if j % W else x for j, x in enumerate(w)]
    low = bound(lowest, lowest if turned == "bound_without_highest" else highest, rays, misfit, p, w)
    ends = (highest, lowest) if turned == "answering_image" else (lowest, highest)
    between = d * d * low <= lagrangian(W, H, rays, misfit, v, p, q, d) <= objective(W, H, strength, rays, misfit, v, d)
    right = lagrangian(W, H, rays, misfit, u, *answering_duals(W, H, strength, rays, answer, u)) == objective(W, H, strength, rays, misfit, u)
    left = lagrangian(W, H, rays, misfit, answering_image(*ends, w), p, q) == low
    return between and right and left


if __name__ == "__main__":
    slices = int(sys.argv[1]) if len(sys.argv) > 1 else 2000
    failed = False
    for turned in (None, *TURNED):
        generator = random.Random(7)
        broken = sum(not holds(generator, turned) for _ in range(slices))
        failed |= (broken > 0) if turned is None else (broken == 0)
        print(f"{turned or 'as defined'}: {slices} slices, the theorem fails on {broken}")
    sys.exit(1 if failed else 0)
