"""Contacts and their forces, against frames that the program's run has one step apart, against the second calculation of scripts/work-out, and worked rows of docs/physics.md."""
import copy
import json
import unittest

from reading import SCENES, kept, ran, script

import frames
import law
import scenes
from vectors import minus, parts, plus

STEPS = ("overlap-of-one", "same-place", "slides-then-sticks", "bounces-back", "damped-approach", "never-pulls", "strikes-twice", "just-not-touching",
         "resists-rolling", "driven-against-another")
CROWDS = ("settles-in-a-box", "paddle-stirs-grains", "stays-on-a-slope", "families-pass-through", "dumbbells-collide", "rolls-in-a-drum", "rolls-down-a-slope", "hopper-runs-out", "mill-lifts-its-charge", "packing-comes-to-rest")


def summed(scene, found):
    """The force on each clump."""
    spheres = scenes.spheres_of(scene)
    sums = [[0, 0, 0] for _ in scene["clumps"]]
    for it in found:
        sums[spheres[it.a].clump] = plus(sums[spheres[it.a].clump], it.force)
        if it.b < len(spheres):
            sums[spheres[it.b].clump] = minus(sums[spheres[it.b].clump], it.force)
    return sums


def next_velocity(scene, i, v, force):
    """Of a clump under gravity and a force, or that of its family's motion."""
    clump = scene["clumps"][i]
    driven = [it["v"] for it in scene["families"] if it["id"] == clump["family"]]
    return driven[0] if driven else plus(plus(v, scene["gravity"]), parts(force, scene["templates"][clump["t"]]["mass"]))


def torques(scene, found):
    spheres = scenes.spheres_of(scene)
    sums = [[0, 0, 0] for _ in scene["clumps"]]
    for it in found:
        sums[spheres[it.a].clump] = plus(sums[spheres[it.a].clump], it.torque_a)
        if it.b < len(spheres):
            sums[spheres[it.b].clump] = plus(sums[spheres[it.b].clump], it.torque_b)
    return sums


def second_loads(tree, frame):
    """Force, torque and displacements of a frame by scripts/work-out."""
    work = script("work-out")
    run = work.Run(copy.deepcopy(tree))
    for clump, body in zip(run.clumps, frame.bodies):
        clump.p, clump.v, clump.q, clump.w = body
        clump.place()
    run.held = dict(frame.held)
    return work.loads(run)


class OneStep(unittest.TestCase):
    """The frames are true output: what the law gives must lead from each to the next."""

    def test_forces_make_the_next_velocity(self):
        for name in STEPS:
            scene, states = kept(name)
            for before, after in zip(states, states[1:]):
                found = law.contacts(scene, before.bodies, before.held)
                for i, force in enumerate(summed(scene, found)):
                    with self.subTest(name, step=after.step, clump=i):
                        self.assertEqual(next_velocity(scene, i, before.bodies[i].v, force), after.bodies[i].v)

    def test_pairs_hold_the_next_displacement(self):
        count = 0
        for name in STEPS:
            scene, states = kept(name)
            for before, after in zip(states, states[1:]):
                found = law.contacts(scene, before.bodies, before.held)
                self.assertEqual({(it.a, it.b): it.held for it in found}, after.held, name)
                count += len(found)
        self.assertGreater(count, 20)


class SecondCalculation(unittest.TestCase):
    def compared(self, tree, frame):
        scene = scenes.scene_of(json.dumps(tree).encode())
        found = law.contacts(scene, frame.bodies, frame.held)
        forces, turning, held = second_loads(tree, frame)
        self.assertEqual(summed(scene, found), forces)
        self.assertEqual(torques(scene, found), turning)
        self.assertEqual({(it.a, it.b): it.held for it in found}, held)
        return found

    def test_kept_scenes(self):
        for name in CROWDS:
            tree = json.loads((SCENES / (name + ".json")).read_text(encoding="utf-8"))
            with self.subTest(name):
                self.assertTrue(any([self.compared(tree, it) for it in kept(name)[1]]))

    def test_rolling_and_families(self):
        tree = json.loads((SCENES / "settles-in-a-box.json").read_text(encoding="utf-8"))
        frame = kept("settles-in-a-box")[1][-1]
        tree["materials"][0]["mr"] = 6554
        found = self.compared(tree, frame)
        self.assertTrue(any(any(it.rolling) for it in found))
        tree.update(version=2, off=[[1, 0]])
        for clump in tree["clumps"][::2]:
            clump["family"] = 1
        self.assertLess(len(self.compared(tree, frame)), len(found))


class Worked(unittest.TestCase):
    def test_slides_then_sticks(self):
        scene, states = kept("slides-then-sticks")
        one = law.contacts(scene, states[0].bodies, states[0].held)[0]
        self.assertEqual((one.overlap, one.push, one.across, one.force), (1, 3968, [-1984, 0, 0], [-1984, 0, 3968]))
        self.assertEqual((one.torque_a, one.held, one.slips), ([0, 1984000, 0], [32768, 0, 0], True))

    def test_damped_approach(self):
        scene, states = kept("damped-approach")
        self.assertEqual(law.contacts(scene, states[0].bodies, {})[0].push, 55571)

    def test_rolling_resistance(self):
        """A sphere of radius 1000 that spins about y by 1000 on a plane, mr 32768: the bound is 1984 * 1000."""
        tree = json.loads((SCENES / "slides-then-sticks.json").read_text(encoding="utf-8"))
        tree["materials"] = [{"kn": 16777216, "mr": 32768}]
        tree["clumps"][0].update(v=[0, 0, 0], w=[0, 1000, 0])
        scene = scenes.scene_of(json.dumps(tree).encode())
        body = frames.Body(*(scene["clumps"][0][it] for it in "pvqw"))
        one = law.contacts(scene, [body], {})[0]
        self.assertEqual((one.push, one.rolling, one.torque_a), (3968, [0, -1984000, 0], [0, -1984000, 0]))


class Command(unittest.TestCase):
    def test_the_floor_bears_the_weight(self):
        """Of a packing at rest the floor and the cylinder take what gravity pulls, within a hundredth."""
        scene, states = kept("packing-comes-to-rest")
        weight = sum(scene["templates"][it["t"]]["mass"] for it in scene["clumps"]) * scene["gravity"][2]
        _, out, _ = ran("forces", SCENES / "packing-comes-to-rest.json", SCENES / "packing-comes-to-rest.frames", "--walls", "--frame", states[-1].step)
        rows = [list(map(int, it.split(","))) for it in out.splitlines()[1:]]
        self.assertAlmostEqual(sum(it[5] for it in rows) / weight, 1, delta=0.01)

    def test_units(self):
        names = (SCENES / "overlap-of-one.json", SCENES / "overlap-of-one.frames", "--frame", 0)
        self.assertIn("0,0,1,4000,3000,3000,-1.000000000,0.000000000,0.000000000,1,33,0,0,0,0,0,0,0\n", ran("forces", *names)[1])
        _, out, _ = ran("forces", *names, "--length", 1e-6, "--time", 1e-3, "--mass", 65536)
        self.assertEqual(out.splitlines()[1].split(",")[10], "33")

    def test_no_such_frame(self):
        status, _, notes = ran("forces", SCENES / "overlap-of-one.json", SCENES / "overlap-of-one.frames", "--frame", 7)
        self.assertEqual((status, notes), (2, "forces: no frame 7\n"))


if __name__ == "__main__":
    unittest.main()
