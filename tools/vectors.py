"""Whole numbers, vectors and rotations as docs/physics.md rounds them ("Rounded operations", "Rotations").

`//` and `>>` of Python round down, as the page's floors do.
"""
import math

ONE = 1 << 30  # one, in a quaternion, a matrix, a normal
VELOCITY = 1 << 16  # a velocity of 1 u per step
VOXEL = 1 << 16  # the edge of a voxel in u

root = math.isqrt


def quotient(x, y):
    """x / y, rounded toward zero."""
    return x // y if x >= 0 else -(-x // y)


def clamped(v, most):
    return [max(-most, min(most, x)) for x in v]


def plus(a, b):
    return [a[0] + b[0], a[1] + b[1], a[2] + b[2]]


def minus(a, b):
    return [a[0] - b[0], a[1] - b[1], a[2] - b[2]]


def times(k, v):
    return [k * v[0], k * v[1], k * v[2]]


def shifted(v, k):
    return [v[0] >> k, v[1] >> k, v[2] >> k]


def parts(v, y):
    """Each component over y, rounded toward zero."""
    return [quotient(v[0], y), quotient(v[1], y), quotient(v[2], y)]


def dot(a, b):
    return a[0] * b[0] + a[1] * b[1] + a[2] * b[2]


def cross(a, b):
    return [a[1] * b[2] - a[2] * b[1], a[2] * b[0] - a[0] * b[2], a[0] * b[1] - a[1] * b[0]]


def length(v):
    """The length of a vector, rounded down."""
    return root(dot(v, v))


def matrix(q):
    """The rotation of a quaternion of any length, times 2^30."""
    a, b, c, d = q
    size = a * a + b * b + c * c + d * d
    forms = (
        (a * a + b * b - c * c - d * d, 2 * (b * c - a * d), 2 * (b * d + a * c)),
        (2 * (b * c + a * d), a * a - b * b + c * c - d * d, 2 * (c * d - a * b)),
        (2 * (b * d - a * c), 2 * (c * d + a * b), a * a - b * b - c * c + d * d),
    )
    return [[quotient(form * ONE, size) for form in line] for line in forms]


def turned(rows, v):
    """A vector of a clump's axes in world axes."""
    return [dot(line, v) >> 30 for line in rows]
