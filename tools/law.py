"""The contacts of one state and what each does in the next step, exactly as docs/physics.md has them, heading by heading.

Plain whole numbers of the scene's units; `contacts` gives every pair that touches, in ascending order.
"""
import collections
import itertools

from scenes import Sphere, spheres_of
from vectors import ONE, clamped, cross, dot, length, matrix, minus, parts, plus, quotient, root, shifted, times, turned

# a clump as the law sees it: position, velocity, spin in world axes, mass, family, and the turned offset of each of its spheres
Moving = collections.namedtuple("Moving", "p v spin mass family offsets")
# a sphere with its center, and its clump with the offset in world axes
Placed = collections.namedtuple("Placed", "number clump r mat center offset body")
Material = collections.namedtuple("Material", "kn kt bn bt mu mr")
# a pair that touches: its numbers, overlap, normal, point of contact, and what the next step does
Contact = collections.namedtuple("Contact", "a b overlap normal point push across force torque_a torque_b rolling held slips")


# ---- the state


def moving_of(scene, i, body):
    kind = scene["templates"][scene["clumps"][i]["t"]]
    rows = matrix(body.q)
    offsets = [turned(rows, it["at"]) for it in kind["spheres"]]
    return Moving(body.p, body.v, turned(rows, body.w), kind["mass"], scene["clumps"][i]["family"], offsets)


def placed_of(scene, bodies):
    """Every sphere in its place."""
    found, spheres = [], iter(spheres_of(scene))
    for i, body in enumerate(bodies):
        moving = moving_of(scene, i, body)
        for offset, sphere in zip(moving.offsets, spheres):
            found.append(Placed(len(found), i, sphere.r, sphere.mat, plus(body.p, offset), offset, moving))
    return found


# ---- pairs: a grid of cells as wide as the greatest sphere, of which each meets itself and half of its neighbours

NEIGHBOURS = [it for it in itertools.product((-1, 0, 1), repeat=3) if it > (0, 0, 0)]


def close_pairs(spheres):
    """Pairs of spheres that may touch, each once, the lower number first."""
    edge = 2 * max(it.r for it in spheres)
    cells = collections.defaultdict(list)
    for it in spheres:
        cells[tuple(at // edge for at in it.center)].append(it)
    for (x, y, z), here in cells.items():
        yield from itertools.combinations(here, 2)
        for dx, dy, dz in NEIGHBOURS:
            for other in cells.get((x + dx, y + dy, z + dz), ()):
                for one in here:
                    yield (one, other) if one.number < other.number else (other, one)


def families_off(scene):
    """The pairs of families that don't meet, in either order."""
    return {pair for one, other in scene["off"] for pair in ((one, other), (other, one))}


# ---- touch: the overlap and the normal, or None


def spheres_touch(a, b):
    apart, reach = minus(a.center, b.center), a.r + b.r
    square = dot(apart, apart)
    if square >= reach * reach:
        return None
    size = root(square)
    return reach - size, parts(times(ONE, apart), size) if size else [ONE, 0, 0]


def unit_of(direction):
    return parts(times(1 << 70, direction), root(dot(direction, direction) << 80))


def plane_touch(plane, normal, sphere):
    gap = dot(normal, minus(sphere.center, plane["at"])) >> 30
    return (min(sphere.r - gap, 1 << 27), normal) if gap < sphere.r else None


def cylinder_touch(cylinder, sphere):
    across = minus(sphere.center, cylinder["at"])
    across["xyz".index(cylinder["axis"])] = 0
    square, room = dot(across, across), cylinder["r"] - sphere.r
    if square <= room * room:
        return None
    off = root(square)
    return min(max(1, off - room), 1 << 27), [quotient(-ONE * it, off) for it in across]


class Walls:
    """The walls of a scene with the normals of the planes."""

    def __init__(self, scene):
        self.walls = [(it, unit_of(it["plane"]["dir"]) if "plane" in it else None) for it in scene["walls"]]

    def touches(self, sphere):
        """The walls that a sphere touches: number, material, overlap, normal."""
        for number, (wall, normal) in enumerate(self.walls):
            touch = plane_touch(wall["plane"], normal, sphere) if normal else cylinder_touch(wall["cylinder"], sphere)
            if touch:
                yield number, wall["mat"], *touch


# ---- mixing


def mixed_of(one, other):
    """The stiffnesses, dampings and frictions of two materials."""
    return Material(
        max(1, one["kn"] * other["kn"] // (one["kn"] + other["kn"])),
        one["kt"] * other["kt"] // max(1, one["kt"] + other["kt"]),
        max(one["bn"], other["bn"]),
        max(one["bt"], other["bt"]),
        min(one["mu"], other["mu"]),
        min(one["mr"], other["mr"]),
    )


def between(one, other):
    """The effective radius or mass of two."""
    return max(1, one * other // (one + other))


# ---- the contact law


def depth_of(r, overlap):
    return max(0, r - overlap // 2)


def velocity_at(body, lever):
    return plus(body.v, shifted(cross(body.spin, lever), 14))


def relative_velocity(a, b, normal, depths):
    """Of the first to the second at the contact; a wall is at rest."""
    found = velocity_at(a.body, minus(a.offset, shifted(times(depths[0], normal), 30)))
    if b is None:
        return found
    return minus(found, velocity_at(b.body, plus(b.offset, shifted(times(depths[1], normal), 30))))


def normal_force(mixed, circle, mass, overlap, along):
    damping = mixed.bn * root(mixed.kn * circle * mass) * along >> 32
    return max(0, min(1 << 62, (mixed.kn * circle * overlap >> 16) - damping))


def friction(mixed, circle, mass, push, normal, across, held):
    """The tangential force, the displacement after it, and whether the contact slips."""
    carried = minus(held, shifted(times(dot(normal, held) >> 30, normal), 30))
    carried = clamped(plus(carried, across), 1 << 40)
    spring = times(-1, shifted(times(mixed.kt * circle, carried), 32))
    damping = shifted(times(mixed.bt * root(mixed.kt * circle * mass), across), 32)
    trial = clamped(minus(spring, damping), 1 << 62)
    bound, size = mixed.mu * push >> 16, length(trial)
    slips = size > bound
    if slips:
        trial, carried = parts(times(bound, trial), size), parts(times(bound, carried), size)
    return trial, carried if mixed.kt else [0, 0, 0], slips


def rolling_torque(mixed, push, radius, normal, a, b):
    """The torque on the first against the rolling part of the relative spin."""
    spin = minus(a.body.spin, b.body.spin) if b else a.body.spin
    rolls = minus(spin, shifted(times(dot(normal, spin) >> 30, normal), 30))
    size, most = length(rolls), (mixed.mr * push >> 16) * radius
    return [-quotient(it * most, size) for it in rolls] if size else [0, 0, 0]


def contact_of(mixed, a, b, number, overlap, normal, held):
    """What a pair does; b is None for a wall, which `number` names among all things."""
    depths = depth_of(a.r, overlap), depth_of(b.r, overlap) if b else 0
    radius, mass = (between(a.r, b.r), between(a.body.mass, b.body.mass)) if b else (a.r, a.body.mass)
    relative, circle = relative_velocity(a, b, normal, depths), root(radius * overlap)
    along = dot(normal, relative) >> 30
    across = minus(relative, shifted(times(along, normal), 30))
    push = normal_force(mixed, circle, mass, overlap, along)
    rub, kept, slips = friction(mixed, circle, mass, push, normal, across, held)
    force, turning = plus(shifted(times(push, normal), 30), rub), cross(normal, rub)
    rolling = rolling_torque(mixed, push, radius, normal, a, b)
    torque_a = plus(minus(cross(a.offset, force), shifted(times(depths[0], turning), 30)), rolling)
    torque_b = [0, 0, 0]
    if b:
        torque_b = minus(minus(times(-1, cross(b.offset, force)), shifted(times(depths[1], turning), 30)), rolling)
    point = minus(a.center, shifted(times(depths[0], normal), 30))
    return Contact(a.number, number, overlap, normal, point, push, rub, force, torque_a, torque_b, rolling, kept, slips)


class Mixes:
    """The mixed materials of a scene, each made once."""

    def __init__(self, scene):
        self.materials, self.found = scene["materials"], {}

    def of(self, i, j):
        if (i, j) not in self.found:
            self.found[i, j] = mixed_of(self.materials[i], self.materials[j])
        return self.found[i, j]


def sphere_contacts(scene, spheres, held, mixes):
    off = families_off(scene)
    for a, b in close_pairs(spheres):
        if a.clump == b.clump or (off and (a.body.family, b.body.family) in off):
            continue
        touch = spheres_touch(a, b)
        if touch:
            yield contact_of(mixes.of(a.mat, b.mat), a, b, b.number, *touch, held.get((a.number, b.number), [0, 0, 0]))


def wall_contacts(scene, spheres, held, mixes):
    walls = Walls(scene)
    for sphere in spheres:
        for number, mat, *touch in walls.touches(sphere):
            at = len(spheres) + number
            yield contact_of(mixes.of(sphere.mat, mat), sphere, None, at, *touch, held.get((sphere.number, at), [0, 0, 0]))


def contacts(scene, bodies, held):
    """Every pair that touches in a state, with what the step from it does, in ascending order."""
    spheres, mixes = placed_of(scene, bodies), Mixes(scene)
    found = [*sphere_contacts(scene, spheres, held, mixes), *wall_contacts(scene, spheres, held, mixes)]
    return sorted(found, key=lambda it: (it.a, it.b))
