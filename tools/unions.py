"""The union of a grain's spheres, measured by thin rods along z: its volume, center of mass and principal moments, where a part in which spheres overlap counts once.

Spheres are `(x, y, z, r)` in any unit of length.
"""
import math

LEAST = 1e-6  # a product of inertia that is a smaller part of the moments is none: rods don't tell so much


# ---- rods


def places(low, high, edge):
    """The middles of rods along an axis, as far out on both sides."""
    count = math.ceil((high - low) / edge)
    return [(low + high) / 2 + edge * (i - (count - 1) / 2) for i in range(count)]


def spans(spheres, x, y):
    """Where the line along z at a place is inside the union: its parts from below, each once."""
    found = []
    for a, b, c, r in spheres:
        square = r * r - (x - a) ** 2 - (y - b) ** 2
        if square > 0:
            half = math.sqrt(square)
            found.append((c - half, c + half))
    end = -math.inf
    for low, high in sorted(found):
        if high > end:
            yield max(low, end), high
            end = high


def rods(spheres, fine):
    """The rods of the union, `(x, y, low, high)`, and their edge: so many along the greatest radius."""
    edge = max(it[3] for it in spheres) / fine
    along = [places(min(s[axis] - s[3] for s in spheres), max(s[axis] + s[3] for s in spheres), edge) for axis in range(2)]
    return [(x, y, low, high) for x in along[0] for y in along[1] for low, high in spans(spheres, x, y)], edge


def sums_of(found, edge):
    """Length, first and second moments of rods: of 1, x, y, z, and of the products of two."""
    ones, first, second = 0.0, [0.0] * 3, [[0.0] * 3 for _ in range(3)]
    thick = edge * edge / 12
    for x, y, low, high in found:
        size, z, zz = high - low, (high * high - low * low) / 2, (high**3 - low**3) / 3
        ones += size
        for i, part in enumerate((x * size, y * size, z)):
            first[i] += part
        rows = (((x * x + thick) * size, x * y * size, x * z), (x * y * size, (y * y + thick) * size, y * z), (x * z, y * z, zz))
        for i in range(3):
            for j in range(3):
                second[i][j] += rows[i][j]
    return ones, first, second


def tensor_of(ones, center, second):
    """The tensor of inertia about the center of mass for the mass 1."""
    spread = [[second[i][j] / ones - center[i] * center[j] for j in range(3)] for i in range(3)]
    trace = sum(spread[i][i] for i in range(3))
    return [[(trace if i == j else 0) - spread[i][j] for j in range(3)] for i in range(3)]


# ---- principal axes


def turn(matrix, axes, p, q):
    """A turn in the plane of two axes that makes their product of inertia zero (Jacobi's method)."""
    if abs(matrix[p][q]) < LEAST * (abs(matrix[p][p]) + abs(matrix[q][q])):
        return
    angle = 0.5 * math.atan2(2 * matrix[p][q], matrix[q][q] - matrix[p][p])
    c, s = math.cos(angle), math.sin(angle)
    for rows in (matrix, axes):
        for row in rows:
            row[p], row[q] = c * row[p] - s * row[q], s * row[p] + c * row[q]
    for k in range(3):
        matrix[p][k], matrix[q][k] = c * matrix[p][k] - s * matrix[q][k], s * matrix[p][k] + c * matrix[q][k]


def principal(tensor):
    """The principal moments, and the axes as columns, which turn right."""
    matrix, axes = [row[:] for row in tensor], [[float(i == j) for j in range(3)] for i in range(3)]
    for _ in range(30):
        for p, q in ((0, 1), (0, 2), (1, 2)):
            turn(matrix, axes, p, q)
    return [matrix[i][i] for i in range(3)], axes


class Union:
    """Volume, center of mass, principal moments for the mass 1, and axes."""

    def __init__(self, spheres, fine):
        found, edge = rods(spheres, fine)
        ones, first, second = sums_of(found, edge)
        self.volume, self.center = ones * edge * edge, [it / ones for it in first]
        self.tensor = tensor_of(ones, self.center, second)
        self.moments, self.axes = principal(self.tensor)

    def along_axes(self, at):
        """A place from the center of mass in the principal axes."""
        away = [a - b for a, b in zip(at, self.center)]
        return [sum(away[i] * self.axes[i][j] for i in range(3)) for j in range(3)]
