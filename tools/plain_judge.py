#!/usr/bin/env python3
"""The judge's two numbers from their formulas, with nothing shared with the crates.

Prints the numbers of the worked 3 x 2 example that the crate `examples` proves of the definitions.
It is no part of the gate: it shows where those numbers come from.
"""


def ray_sum(entries, u):
    return sum(weight * u[pixel] for pixel, weight in entries)


def differences(W, H, u):
    """In the order of the slopes: right and down of pixel 0, of pixel 1, and so on; None where the slice ends."""
    found = []
    for j in range(W * H):
        found.append(u[j + 1] - u[j] if j % W + 1 < W else None)
        found.append(u[j + W] - u[j] if j // W + 1 < H else None)
    return found


def objective(W, H, strength, rays, misfit, u, d=1):
    """Twice the primal value of the image u / d, times d * d."""
    K, _ = misfit
    rough = sum(abs(x) for x in differences(W, H, u) if x is not None)
    return sum(K(d, ray_sum(entries, u) - d * reading) for entries, reading in rays) + 2 * d * strength * rough


def adjoint(W, H, rays, p, q):
    """w: the ray numbers and the slopes, carried back to the pixels."""
    w = [0] * (W * H)
    for (entries, _), number in zip(rays, p):
        for pixel, weight in entries:
            w[pixel] += weight * number
    for j in range(W * H):
        w[j] -= q[2 * j] + q[2 * j + 1]
        if j % W > 0:
            w[j] += q[2 * (j - 1)]
        if j // W > 0:
            w[j] += q[2 * (j - W) + 1]
    return w


def bound(lowest, highest, rays, misfit, p, w):
    """Twice the dual value of the ray numbers p and the slopes that w was made of."""
    _, price = misfit
    readings = sum(x * reading for x, (_, reading) in zip(p, rays))
    return -sum(map(price, p)) - 2 * readings + 2 * sum(min(lowest * x, highest * x) for x in w)


def lagrangian(W, H, rays, misfit, u, p, q, d=1):
    """Twice the Lagrangian of the image u / d at the ray numbers p and slopes q, times d * d."""
    _, price = misfit
    total = 2 * d * sum(slope * x for slope, x in zip(q, differences(W, H, u)) if x is not None)
    for (entries, reading), number in zip(rays, p):
        total += 2 * d * (ray_sum(entries, u) - d * reading) * number - d * d * price(number)
    return total


def answering_image(lowest, highest, w):
    """The image at which the Lagrangian is lowest."""
    return [lowest if x >= 0 else highest for x in w]


def answering_duals(W, H, strength, rays, answer, u):
    """The ray numbers and slopes at which the Lagrangian is highest."""
    numbers = [answer(ray_sum(entries, u) - reading) for entries, reading in rays]
    return numbers, [0 if x is None else strength * sign(x) for x in differences(W, H, u)]


def square():
    return (lambda d, n: n * n), (lambda p: p * p)


def sign(x):
    return (x > 0) - (x < 0)


def absolute(s):
    return (lambda d, n: 2 * s * d * abs(n)), (lambda p: 0)


W, H, LOWEST, HIGHEST, STRENGTH = 3, 2, 2, 9, 6
RAYS = [
    ([(0, 3), (1, 1), (2, 2)], 31),
    ([(1, 2), (4, 5)], 20),
    ([], 7),
    ([(2, 1), (3, 4), (5, 1)], 45),
]
IMAGE = [4, 7, 2, 9, 3, 5]
NUMBERS = [2, -3, 1, -1]
#        q(2j), q(2j + 1) for j = 0 .. 5
SLOPES = [5, -2, -4, 6, 0, 3, -6, 0, 1, 0, 0, 0]

THIRDS = [13, 20, 7, 26, 9, 14]

if __name__ == "__main__":
    w = adjoint(W, H, RAYS, NUMBERS, SLOPES)
    print("w", w)
    for name, misfit, answer in (("square", square(), lambda r: r), ("absolute 3", absolute(3), lambda r: 3 * sign(r))):
        print(name, "objective", objective(W, H, STRENGTH, RAYS, misfit, IMAGE), "bound", bound(LOWEST, HIGHEST, RAYS, misfit, NUMBERS, w))
        print(name, "Lagrangian", lagrangian(W, H, RAYS, misfit, IMAGE, NUMBERS, SLOPES))
        thirds = objective(W, H, STRENGTH, RAYS, misfit, THIRDS, 3), lagrangian(W, H, RAYS, misfit, THIRDS, NUMBERS, SLOPES, 3)
        print(name, "objective and Lagrangian of", THIRDS, "/ 3, times 9:", *thirds)
        image = answering_image(LOWEST, HIGHEST, w)
        print(name, "Lagrangian at the answering image", image, lagrangian(W, H, RAYS, misfit, image, NUMBERS, SLOPES))
        p, q = answering_duals(W, H, STRENGTH, RAYS, answer, IMAGE)
        print(name, "Lagrangian at the answering numbers", p, "and slopes", q, lagrangian(W, H, RAYS, misfit, IMAGE, p, q))
