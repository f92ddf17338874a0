"""Templates of grains: lenses and rods by their formulas, principal axes by turning a grain, and the templates of the kept scene of grains."""
import json
import math
import unittest

from reading import SCENES, ran, script

UNITS = ("--density", 2500, "--length", 1e-8, "--time", 1e-5, "--mass", 1e-10)
# the grains of scenes/grains-of-four-kinds.json in metres; a corner of each convex shape is a sphere
GRAINS = (
    [(0, 0, 0, 0.001)],
    [(-0.0004, 0, 0, 0.0008), (0.0004, 0, 0, 0.0008)],
    [(s * 0.0004, t * 0.0004, s * t * 0.0004, 0.0008) for s in (-1, 1) for t in (-1, 1)],
    [(s * 0.0005, t * 0.0004, w * 0.0003, 0.00075) for s in (-1, 1) for t in (-1, 1) for w in (-1, 1)],
)
OF_GRAINS = ("--density", 2500, "--length", 1e-10, "--time", 4e-6, "--mass", 1e-11)


def made(spheres, units=UNITS):
    status, out, _ = ran("template", *units, given="".join("%r %r %r %r\n" % it for it in spheres).encode())
    assert status == 0, out
    return json.loads(out)


def turned(spheres):
    """The same spheres about another point, along other axes."""
    (a, b), (c, d) = (math.cos(0.7), math.sin(0.7)), (math.cos(0.4), math.sin(0.4))
    found = []
    for x, y, z, r in spheres:
        x, y = a * x - b * y, b * x + a * y
        y, z = c * y - d * z, d * y + c * z
        found.append((x + 0.01, y - 0.02, z + 0.03, r))
    return found


class Unions(unittest.TestCase):
    def test_a_sphere(self):
        found, mass = made([(0, 0, 0, 0.001)]), 4 / 3 * math.pi * 1e-9 * 2500
        self.assertAlmostEqual(found["mass"] * 1e-10 / mass, 1, delta=4e-4)
        for moment in found["moments"]:
            self.assertAlmostEqual(moment * 2**14 * 1e-26 / (2 / 5 * mass * 1e-6), 1, delta=8e-4)

    def test_two_that_overlap(self):
        """Less the lens that they share: pi (4 r + d) (2 r - d)^2 / 12."""
        found = made([(0, 0, 0, 0.001), (0, 0.0012, 0, 0.001)])
        volume = 2 * 4 / 3 * math.pi * 1e-9 - math.pi * (0.004 + 0.0012) * (0.002 - 0.0012) ** 2 / 12
        self.assertAlmostEqual(found["mass"] * 1e-10 / (2500 * volume), 1, delta=4e-4)
        self.assertEqual([round(it["at"][1], -3) for it in found["spheres"]], [-60000, 60000])

    def test_two_apart_as_scripts_make_scenes(self):
        """Without an overlap each sphere counts whole, as there."""
        found = made([(-0.001, 0, 0, 0.001), (0.001, 0, 0, 0.001)])
        scenes = script("make-scenes")
        rod = scenes.template([(-100000, 0, 0, 100000), (100000, 0, 0, 100000)])
        for one, other in zip(found["moments"], rod["moments"]):
            self.assertAlmostEqual(one / found["mass"] / (other / rod["mass"]), 1, delta=8e-4)

    def test_turned_and_shifted(self):
        spheres = [(0, 0, 0, 0.001), (0.0003, 0.0012, 0.0004, 0.0008), (-0.001, 0, 0, 0.0006)]
        one, other = made(spheres), made(turned(spheres))
        for a, b in zip(sorted(one["moments"]), sorted(other["moments"])):
            self.assertAlmostEqual(a / b, 1, delta=1e-3)

    def test_faults(self):
        for given in (b"", b"1 2 3\n", b"0 0 0 0\n", b"0 0 0 1\n" * 17):
            status, out, notes = ran("template", *UNITS, given=given)
            self.assertEqual((status, out, notes.count("\n")), (2, "", 1))


class KeptGrains(unittest.TestCase):
    def test_their_templates(self):
        scene = json.loads((SCENES / "grains-of-four-kinds.json").read_text(encoding="utf-8"))
        self.assertEqual(scene["templates"], [made(it, OF_GRAINS) for it in GRAINS])

    def test_nothing_against_it(self):
        status, out, _ = ran("check-scene", SCENES / "grains-of-four-kinds.json", *OF_GRAINS[2:])
        self.assertEqual(status, 0, out)


if __name__ == "__main__":
    unittest.main()
