"""Units and materials, against numbers that were worked out elsewhere: those of docs/physics.md, of scripts/make-scenes, of a contact that is integrated, and of kept frames."""
import math
import unittest

from reading import kept, ran, script

import si
from command import Fault

GRAIN = si.Grain(7e6, 0.25, 2500, 0.5, 0.5, 0)
SPHERE = 4 / 3 * math.pi * 0.005**3 * 2500
OF_USE = si.Units(10e-9, 100e-6, SPHERE / 16384)  # of the scenes of use


def impact(b, steps=20_000):
    """The restitution of a contact of stiffness and mass 1 by small steps: x'' = -max(0, x^(3/2) + b x^(1/4) x'), until it parts or the force is cut off."""
    x, v, dt = 0.0, 1.0, 4.0 / steps
    while True:
        push = max(0.0, x**1.5 + b * x**0.25 * v)
        v -= dt * push
        x += dt * v
        if x <= 0:
            return -v


class Materials(unittest.TestCase):
    def test_as_on_the_page(self):
        found = si.material_of(OF_USE, GRAIN)
        self.assertEqual((found["kn"], found["kt"], found["mu"]), (53518837, 68809934, 32768))
        self.assertNotIn("mr", found)

    def test_as_scripts_make_scenes(self):
        scenes = script("make-scenes")
        for young, friction, poisson in ((7e6, 0.5, 0.25), (20e6, 0.1, 0.4), (1e6, 0, 0)):
            made = scenes.material(young, friction, poisson)
            found = si.material_of(OF_USE, si.Grain(young, poisson, 2500, 0.5, friction, 0))
            self.assertEqual([found[it] for it in ("kn", "kt", "mu")], [made[it] for it in ("kn", "kt", "mu")])

    def test_there_and_back(self):
        normal, across = si.normal_stiffness(7e6, 0.3), si.tangential_stiffness(7e6, 0.3)
        young, poisson = si.elastic_of(normal, across)
        self.assertAlmostEqual(young / 7e6, 1)
        self.assertAlmostEqual(poisson, 0.3)

    def test_rolling(self):
        self.assertEqual(si.material_of(OF_USE, GRAIN._replace(rolling=0.5))["mr"], 32768)

    def test_too_stiff(self):
        with self.assertRaises(Fault):
            si.material_of(OF_USE, GRAIN._replace(young=70e9))


class Templates(unittest.TestCase):
    def test_a_sphere(self):
        found = si.template_of(OF_USE, [(0, 0, 0, 0.005)], 2500)
        self.assertEqual((found["mass"], found["moments"]), (16384, [100_000_000_000] * 3))

    def test_a_rod_as_scripts_make_scenes(self):
        scenes = script("make-scenes")
        half = 0.35 * 0.005
        found = si.template_of(OF_USE, [(-half, 0, 0, 0.005), (half, 0, 0, 0.005)], 2500)
        self.assertEqual(found, scenes.template([(-175000, 0, 0, 500000), (175000, 0, 0, 500000)]))


class Restitution(unittest.TestCase):
    def test_as_integrated(self):
        for bn in (2_000, 10_000, 26_214, 60_000, 120_000, 200_000, 262_144):
            with self.subTest(bn):
                self.assertAlmostEqual(si.restitution_of(bn), impact(bn / 65536), delta=2e-3)

    def test_as_in_the_kept_frames(self):
        """Four spheres strike a plane at 100 u a step; within the page's two digits, and a hundredth for its coarse unit."""
        scene, frames = kept("rebounds")
        for clump, body in enumerate(frames[-1].bodies):
            bn = scene["materials"][clump]["bn"]
            self.assertAlmostEqual(si.restitution_of(bn), body.v[2] / 6_553_600, delta=0.012)

    def test_there_and_back(self):
        for wanted in (1, 0.9, 0.7, 0.5, 0.3, 0.1, 0.06):
            self.assertAlmostEqual(si.restitution_of(si.damping_of(wanted)), wanted, delta=1e-5)

    def test_critical(self):
        """At the share 1 the general form has the limit exp(-2)."""
        critical = 65536 * math.sqrt(5)
        for near in (critical * 0.999, critical, critical * 1.001):
            self.assertAlmostEqual(si.restitution_of(near), math.exp(-2), delta=1e-3)

    def test_past_the_range(self):
        with self.assertRaises(Fault):
            si.damping_of(0.01)


class Choosing(unittest.TestCase):
    def test_rayleigh(self):
        self.assertAlmostEqual(si.rayleigh_time(0.005, GRAIN), 0.51e-3, delta=0.005e-3)

    def test_fits_its_ranges(self):
        for radius in (1e-5, 1e-3, 0.1):
            for young in (1e6, 1e9, 2e11):
                grain = GRAIN._replace(young=young)
                units = si.chosen_units(radius, 3 * radius, grain, 9.81)
                found = si.material_of(units, grain)
                great = si.template_of(units, [(0, 0, 0, 3 * radius)], 2500)
                self.assertLessEqual(units.time, 0.2 * si.rayleigh_time(radius, grain))
                self.assertGreater(max(found["kn"], found["kt"]), 2**12)
                self.assertLessEqual(great["spheres"][0]["r"], si.MOST_RADIUS)
                self.assertLessEqual(max(great["moments"]), si.MOST_MOMENT)
                si.gravity_number(units, 9.81)

    def test_rounded_down(self):
        for number, wanted in ((1, 1), (1.99, 1), (2, 2), (4.9, 2), (5e-7, 5e-7), (9e-4, 5e-4), (0.1, 0.1)):
            self.assertAlmostEqual(si.rounded_down(number) / wanted, 1)


class Command(unittest.TestCase):
    GLASS = ("--young", 7e6, "--density", 2500, "--radius", 0.005)

    def test_table(self):
        status, out, notes = ran("units", *self.GLASS)
        self.assertEqual((status, notes), (0, ""))
        self.assertIn("restitution", out)

    def test_a_scene_that_is_one(self):
        status, out, _ = ran("units", *self.GLASS, "--rolling", 0.1, "--scene")
        self.assertEqual(status, 0)
        status, out, _ = ran("check-scene", given=out.encode())
        self.assertEqual(status, 0, out)

    def test_coarse_units_are_told(self):
        status, _, notes = ran("units", *self.GLASS, "--length", 1e-8)
        self.assertEqual(status, 1)
        self.assertIn("the radius has", notes)

    def test_faults_are_one_line(self):
        for words in ((*self.GLASS, "--restitution", 0.01), (*self.GLASS, "--time", -1), (*self.GLASS, "--time", 1)):
            status, out, notes = ran("units", *words)
            self.assertEqual((status, out, notes.count("\n")), (2, "", 1), notes)


if __name__ == "__main__":
    unittest.main()
