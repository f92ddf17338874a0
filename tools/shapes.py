"""The walls of a scene as surfaces that can be drawn: a plane cut to the box, a cylinder along the box."""
import math

from vectors import VOXEL

SIDES = 48  # of a drawn cylinder


def box_of(scene):
    """The edges of the box in u."""
    return [voxels * VOXEL for voxels in scene["box"]]


def frame_of(direction):
    """Two directions of length 1 across one, and across each other."""
    size = math.sqrt(sum(it * it for it in direction))
    n = [it / size for it in direction]
    least = min(range(3), key=lambda axis: abs(n[axis]))
    help_ = [float(axis == least) for axis in range(3)]
    one = product(n, help_)
    size = math.sqrt(sum(it * it for it in one))
    one = [it / size for it in one]
    return one, product(n, one)


def product(a, b):
    return [a[1] * b[2] - a[2] * b[1], a[2] * b[0] - a[0] * b[2], a[0] * b[1] - a[1] * b[0]]


def cut(corners, axis, bound, sign):
    """What of a polygon has `sign * coordinate` at most `sign * bound`."""
    kept = []
    for here, last in zip(corners, [corners[-1:], *([it] for it in corners[:-1])]):
        before = last[0]
        is_in, was_in = sign * (here[axis] - bound) <= 0, sign * (before[axis] - bound) <= 0
        if is_in != was_in:
            part = (bound - before[axis]) / (here[axis] - before[axis])
            kept.append([a + part * (b - a) for a, b in zip(before, here)])
        if is_in:
            kept.append(here)
    return kept


def plane_corners(plane, box):
    """The corners of the part of a plane that lies in the box; none where it passes by."""
    far = 2.0 * (sum(box) + sum(plane["at"]))
    one, other = frame_of(plane["dir"])
    signs = ((1, 1), (-1, 1), (-1, -1), (1, -1))
    corners = [[at + far * (s * a + t * b) for at, a, b in zip(plane["at"], one, other)] for s, t in signs]
    for axis, edge in enumerate(box):
        slack = 1e-9 * edge  # so that a plane in a face of the box isn't cut away by rounding
        for bound, sign in ((-slack, -1), (edge + slack, 1)):
            corners = cut(corners, axis, bound, sign) if corners else []
    return corners


def cylinder_rings(cylinder, box):
    """Two rings of points, at both ends of the box."""
    axis = "xyz".index(cylinder["axis"])
    one, other = [it for it in range(3) if it != axis]
    rings = []
    for end in (0.0, float(box[axis])):
        ring = []
        for side in range(SIDES):
            angle, point = 2 * math.pi * side / SIDES, [0.0] * 3
            point[axis] = end
            point[one] = cylinder["at"][one] + cylinder["r"] * math.cos(angle)
            point[other] = cylinder["at"][other] + cylinder["r"] * math.sin(angle)
            ring.append(point)
        rings.append(ring)
    return rings


def surfaces(scene):
    """The polygons of each wall: number of the wall, corners."""
    box = box_of(scene)
    for number, wall in enumerate(scene["walls"]):
        if "plane" in wall:
            corners = plane_corners(wall["plane"], box)
            if len(corners) >= 3:
                yield number, corners
            continue
        low, high = cylinder_rings(wall["cylinder"], box)
        for side in range(SIDES):
            after = (side + 1) % SIDES
            yield number, [low[side], low[after], high[after], high[side]]
