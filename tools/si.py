"""Metres, seconds and kilograms to a scene's whole numbers and back, by the formulas of docs/units.md.

The restitution is that of the law as it is: its normal force is cut off at zero, so a contact ends where damping outweighs the spring.
"""
import collections
import math

from command import Fault
from vectors import ONE, VELOCITY, VOXEL

MOST_STIFF, MOST_SHARE, MOST_MASS, MOST_MOMENT, MOST_RADIUS = 2**28, 2**18, 2**40, 2**62, 2**26
FINE_RADIUS = 10**7  # u in the smallest radius from which on grains come to rest as they should
FINE_SPEED = 1000  # u a step from which on a speed is followed well
STEP_SHARE = 0.2  # of Rayleigh's time

# what a grain is made of: Young's modulus in Pa, kg/m^3; the others have no unit
Grain = collections.namedtuple("Grain", "young poisson density restitution friction rolling")


class Units(collections.namedtuple("Units", "length time mass")):
    """Metres in a u, seconds in a step, kilograms in a mass unit."""

    def metres(self, u):
        return u * self.length

    def speed(self, velocity):
        """A velocity's number in metres per second."""
        return velocity * self.length / (VELOCITY * self.time)

    def turning(self, spin):
        """A spin's number in radians per second."""
        return spin / (ONE * self.time)

    def force(self, number):
        """A force's number in newtons."""
        return number * self.mass * self.length / (VELOCITY * self.time**2)

    def torque(self, number):
        """A torque's number, a force's times u, in newton metres."""
        return self.force(number) * self.length

    def energy(self, number):
        """Mass units times u^2 per step^2 in joules."""
        return number * self.mass * (self.length / self.time) ** 2

    def stiffness_scale(self):
        """What a stiffness in Pa is multiplied by to be `kn` or `kt`."""
        return 2**32 * self.length * self.time**2 / self.mass


# ---- elastic constants


def normal_stiffness(young, poisson):
    """In Pa: that of the material by itself, of which two are springs in a row."""
    return 4 / 3 * young / (1 - poisson**2)


def shear_modulus(young, poisson):
    return young / (2 * (1 + poisson))


def tangential_stiffness(young, poisson):
    return 8 * shear_modulus(young, poisson) / (2 - poisson)


def elastic_of(normal, across):
    """Young's modulus and Poisson's ratio of two stiffnesses in Pa."""
    ratio = across / normal
    poisson = (3 - 2 * ratio) / (3 - ratio)
    return 3 / 4 * normal * (1 - poisson**2), poisson


def rayleigh_time(radius, grain):
    """The time that a surface wave takes along a grain, in the field's approximation."""
    speed = math.sqrt(grain.density / shear_modulus(grain.young, grain.poisson))
    return math.pi * radius * speed / (0.163 * grain.poisson + 0.8766)


# ---- restitution and damping


def restitution_of(bn):
    """What is left of the speed of an impact along the normal, of any speed, masses and radii.

    With x^(5/4) in the place of the overlap x the contact is a damped spring, b = bn / 65536 being sqrt(5) times its share of critical damping; it ends where its
    force is zero.
    """
    share = bn / 65536 / math.sqrt(5)
    if share < 1:
        return math.exp(-2 * share * math.acos(share) / math.sqrt(1 - share**2))
    if share == 1:
        return math.exp(-2)
    return math.exp(-2 * share * math.acosh(share) / math.sqrt(share**2 - 1))


def damping_of(restitution):
    """The `bn` whose restitution is nearest to the one that is asked for."""
    least = restitution_of(MOST_SHARE)
    if not least <= restitution <= 1:
        raise Fault("a restitution is from %.3f, that of the greatest bn, to 1" % least)
    low, high = 0, MOST_SHARE
    while high - low > 1:
        middle = (low + high) // 2
        low, high = (middle, high) if restitution_of(middle) >= restitution else (low, middle)
    return min(low, high, key=lambda bn: abs(restitution_of(bn) - restitution))


# ---- the numbers of a material, a template, a scene


def share(number, name):
    """A number without unit, times 65536."""
    found = round(65536 * number)
    if not 0 <= found <= MOST_SHARE:
        raise Fault("%s is from 0 to 4, and not %g" % (name, number))
    return found


def stiffness(units, pascals, name):
    found = round(units.stiffness_scale() * pascals)
    if not 1 <= found <= MOST_STIFF:
        raise Fault("%s would be %d, and is from 1 to 2^28: take a %s mass unit" % (name, found, "greater" if found else "smaller"))
    return found


def material_of(units, grain):
    """The numbers of a material. Damping across the normal is as that along it."""
    damping = damping_of(grain.restitution)
    found = {
        "kn": stiffness(units, normal_stiffness(grain.young, grain.poisson), "kn"),
        "kt": stiffness(units, tangential_stiffness(grain.young, grain.poisson), "kt"),
        "bn": damping,
        "bt": damping,
        "mu": share(grain.friction, "friction"),
    }
    return {**found, "mr": share(grain.rolling, "rolling resistance")} if grain.rolling else found


def sphere_mass(radius, density):
    return 4 / 3 * math.pi * radius**3 * density


def template_of(units, spheres, density, mat=0):
    """A clump of spheres `(x, y, z, r)` in metres about its center of mass, in its principal axes. Each counts whole, also where they overlap."""
    masses = [sphere_mass(r, density) for *_, r in spheres]
    moments = []
    for axis in range(3):
        far = [sum(s[other] ** 2 for other in range(3) if other != axis) + 2 / 5 * s[3] ** 2 for s in spheres]
        moments.append(round(sum(m * d for m, d in zip(masses, far)) / (2**14 * units.mass * units.length**2)))
    balls = [{"at": [round(it / units.length) for it in s[:3]], "r": round(s[3] / units.length), "mat": mat} for s in spheres]
    return {"mass": round(sum(masses) / units.mass), "moments": moments, "spheres": balls}


def gravity_number(units, gravity):
    found = round(65536 * gravity * units.time**2 / units.length)
    if abs(found) > 2**20:
        raise Fault("gravity would be %d, and is at most 2^20: take a shorter step or a greater u" % found)
    return found


def velocity_number(units, speed):
    return round(VELOCITY * speed * units.time / units.length)


def spin_number(units, turning):
    return round(ONE * turning * units.time)


# ---- choosing units


def rounded_down(number):
    """The greatest of 1, 2 and 5 times a power of ten that isn't greater."""
    power = 10.0 ** math.floor(math.log10(number) + 1e-12)
    return next(step * power for step in (5, 2, 1) if step * power <= number * (1 + 1e-9))


def chosen_length(radius, greatest):
    """A u of which the smallest radius has some ten million, or as many as the greatest one allows."""
    return max(rounded_down(radius / FINE_RADIUS), greatest / (MOST_RADIUS / 2))


def chosen_time(radius, grain, length, gravity):
    longest = STEP_SHARE * rayleigh_time(radius, grain)
    if gravity:
        longest = min(longest, math.sqrt(15 * length / abs(gravity)))
    return rounded_down(longest)


def chosen_mass(radius, greatest, grain, length, time):
    """The mass unit of which a smallest sphere has the greatest power of two that the ranges of stiffness, mass and moments allow."""
    stiffest = max(normal_stiffness(grain.young, grain.poisson), tangential_stiffness(grain.young, grain.poisson))
    kilograms, grown = sphere_mass(radius, grain.density), (greatest / radius) ** 3
    most = kilograms / (Units(length, time, 1).stiffness_scale() * stiffest / MOST_STIFF)
    most = min(most, MOST_MASS / grown / 16, MOST_MOMENT * 2**14 * 2.5 / grown / (greatest / length) ** 2 / 16)
    if most < 2:
        raise Fault("a sphere would have less than two mass units: take a shorter step")
    return kilograms / 2 ** math.floor(math.log2(most))


def chosen_units(radius, greatest, grain, gravity, length=None, time=None, mass=None):
    """Units for a smallest and a greatest radius in metres; those that are given stay."""
    length = length or chosen_length(radius, greatest)
    time = time or chosen_time(radius, grain, length, gravity)
    return Units(length, time, mass or chosen_mass(radius, greatest, grain, length, time))


def voxels(units, metres):
    return max(1, math.ceil(metres / units.length / VOXEL))


# ---- words of a command line


def add_units(parser):
    """Options for the units of a scene, which its text doesn't have."""
    group = parser.add_argument_group("units of the scene (all three, for SI; else its own units are printed)")
    group.add_argument("--length", type=float, metavar="L", help="metres in a u")
    group.add_argument("--time", type=float, metavar="T", help="seconds in a step")
    group.add_argument("--mass", type=float, metavar="M", help="kilograms in a mass unit")


def units_of(options):
    """The units that were given, or None."""
    given = (options.length, options.time, options.mass)
    if any(it is not None and not it > 0 for it in given):
        raise Fault("--length, --time and --mass are greater than 0")
    if None not in given:
        return Units(*given)
    if given == (None, None, None):
        return None
    raise Fault("--length, --time and --mass go together")
