"""Tools that make other files of frames: what they write of kept frames, of outputs that were cut, and what they say where they can't."""
import pathlib
import tempfile
import unittest
import xml.etree.ElementTree

from reading import SCENES, TOP, kept, ran, script

import scenes
import shapes

REBOUNDS, BOX = SCENES / "rebounds", SCENES / "settles-in-a-box"
ROWS = REBOUNDS.with_suffix(".frames").read_bytes()


def files_of(name):
    return SCENES / (name + ".json"), SCENES / (name + ".frames")


class Folder(unittest.TestCase):
    def setUp(self):
        held = tempfile.TemporaryDirectory()
        self.addCleanup(held.cleanup)
        self.folder = pathlib.Path(held.name)

    def file(self, name, data):
        path = self.folder / name
        path.write_bytes(data)
        return path


class LastFrame(Folder):
    def starts(self):
        """Where the frames and the end row of the kept output begin."""
        return [at for at in range(len(ROWS)) if (at == 0 or ROWS[at - 1:at] == b"\n") and ROWS[at:at + 1] in (b"f", b"e")]

    def test_every_cut_of_the_first_frames(self):
        """Cut at any byte, the last whole frame is the one before the last head that has begun."""
        starts = self.starts()
        for cut in range(1, starts[3] + 2, 47):
            begun = [it for it in starts if it < cut]
            status, out, notes = ran("last-frame", self.file("cut", ROWS[:cut]))
            with self.subTest(cut):
                if len(begun) < 2:
                    self.assertEqual((status, out, notes.count("\n")), (2, "", 1))
                else:
                    self.assertEqual((status, out.encode()), (0, ROWS[begun[-2]:begun[-1]]))

    def test_cut_and_resume(self):
        cut = self.file("cut", ROWS[:4000])
        status, out, _ = ran("last-frame", "--cut", "--resume", REBOUNDS.with_suffix(".json"), cut)
        text, _, frame = out.partition("\n--frame--\n")
        self.assertEqual((status, text + "\n"), (0, REBOUNDS.with_suffix(".json").read_text(encoding="utf-8")))
        self.assertTrue(ROWS.startswith(cut.read_bytes()))
        self.assertTrue(cut.read_bytes().endswith(frame.encode()))

    def test_whole(self):
        path = self.file("whole", ROWS)
        status, out, notes = ran("last-frame", "--cut", path)
        self.assertEqual((status, out, path.read_bytes() == ROWS), (1, "", True))
        self.assertIn("it is whole", notes)

    def test_an_end_row_that_was_cut(self):
        self.assertEqual(ran("last-frame", "--bytes", self.file("cut", ROWS[:-1]))[:2], (0, "%d\n" % self.starts()[-1]))

    def test_no_rows(self):
        for data in (b"", b"fra", b"{}\n", b"clump,0\n", b"frame,0\nclump,1,2\nframe,1\n"):
            status, out, notes = ran("last-frame", self.file("bad", data))
            self.assertEqual((status, out, notes.count("\n")), (2, "", 1), notes)


class ToScene(Folder):
    def test_begins_at_the_frame(self):
        status, out, notes = ran("to-scene", *files_of("settles-in-a-box"), "--frame", 4000)
        self.assertEqual(status, 0)
        scene, states = scenes.scene_of(out.encode()), kept("settles-in-a-box")[1]
        body = next(it for it in states if it.step == 4000).bodies[7]
        self.assertEqual([scene["clumps"][7][it] for it in "pvqw"], list(body))
        self.assertIn("is lost", notes)

    def test_second_calculation_takes_the_same_step(self):
        """From frame 0, where nothing is held, the new scene's run is the old one's."""
        _, out, _ = ran("to-scene", *files_of("strikes-twice"), "--frame", 0)
        work = script("work-out")
        self.assertEqual("\n".join(work.output(scenes.scene_of(out.encode()))) + "\n", (SCENES / "strikes-twice.frames").read_text(encoding="utf-8"))


class ToXyz(unittest.TestCase):
    def test_a_block(self):
        _, out, _ = ran("to-xyz", *files_of("overlap-of-one"))
        rows = out.splitlines()
        self.assertEqual((len(rows), rows[0], rows[4]), (8, "2", "2"))
        self.assertIn('pbc="F F F"', rows[1])
        self.assertEqual(rows[6].split()[:5], ["T0", "2999", "3000", "3000", "1000"])

    def test_metres(self):
        _, out, _ = ran("to-xyz", *files_of("overlap-of-one"), "--unit", 1e-6)
        self.assertEqual(out.splitlines()[2].split()[1:5], ["0.003", "0.003", "0.003", "0.001"])

    def test_a_text_that_was_cut(self):
        data = BOX.with_suffix(".frames").read_bytes()
        status, out, notes = ran("to-xyz", BOX.with_suffix(".json"), given=data[: len(data) - 20])
        self.assertEqual((status, out.count("Lattice")), (0, 5))
        self.assertIn("was cut in frame 8000", notes)


class ToVtk(Folder):
    def written(self, name, *words):
        status, out, notes = ran("to-vtk", *files_of(name), "--to", self.folder / "vtk", *words)
        self.assertEqual((status, notes), (0, ""))
        return {it.name: xml.etree.ElementTree.parse(it).getroot() for it in (self.folder / "vtk").iterdir()}

    def values(self, tree, name):
        return [float(it) for it in next(it for it in tree.iter("DataArray") if it.get("Name") == name).text.split()]

    def test_series(self):
        found = self.written("settles-in-a-box")
        self.assertEqual(len(found), 5 + 5 + 3)
        self.assertEqual([float(it.get("timestep")) for it in found["spheres.pvd"].iter("DataSet")], [0, 2000, 4000, 6000, 8000])

    def test_spheres(self):
        found = self.written("overlap-of-one", "--no-contacts")["spheres-000000001.vtp"]
        self.assertEqual(self.values(found, "points"), [2999, 3000, 3000, 4999, 3000, 3000])
        self.assertEqual(self.values(found, "radius"), [1000, 1000])
        self.assertAlmostEqual(self.values(found, "velocity")[0], -33 / 65536, places=9)

    def test_contacts(self):
        found = self.written("slides-then-sticks")["contacts-000000000.vtp"]
        self.assertEqual((self.values(found, "at_wall"), self.values(found, "overlap"), self.values(found, "slips")), ([1], [1], [1]))
        self.assertAlmostEqual(self.values(found, "normal_force")[0], 3968 / 65536, places=9)

    def test_walls(self):
        found = self.written("settles-in-a-box")["walls.vtp"]
        self.assertEqual(self.values(found, "wall"), [0, 1, 2, 3, 4])


class Shapes(unittest.TestCase):
    BOX = [100, 200, 300]

    def test_a_level_plane_is_cut_to_the_box(self):
        for height in (0, 150, 300):
            corners = shapes.plane_corners({"at": [50, 50, height], "dir": [0, 0, 7]}, self.BOX)
            found = sorted([round(it, 3) + 0.0 for it in corner] for corner in corners)
            self.assertEqual(found, [[0, 0, height], [0, 200, height], [100, 0, height], [100, 200, height]])

    def test_a_slanting_plane(self):
        corners = shapes.plane_corners({"at": [50, 0, 0], "dir": [1, 0, 0]}, self.BOX)
        self.assertEqual({round(it[0], 6) for it in corners}, {50})
        corners = shapes.plane_corners({"at": [10, 0, 0], "dir": [1, 1, 1]}, self.BOX)
        self.assertEqual(len(corners), 3)
        for corner in corners:
            self.assertAlmostEqual(sum(corner), 10, places=4)

    def test_a_plane_that_passes_by(self):
        self.assertEqual(shapes.plane_corners({"at": [0, 0, 400], "dir": [0, 0, 1]}, self.BOX), [])

    def test_a_cylinder(self):
        for axis, others in (("x", (1, 2)), ("y", (0, 2)), ("z", (0, 1))):
            low, high = shapes.cylinder_rings({"axis": axis, "at": [50, 60, 70], "r": 40}, self.BOX)
            for point in (*low, *high):
                self.assertAlmostEqual(sum((point[it] - (50, 60, 70)[it]) ** 2 for it in others), 1600)


class CheckScene(Folder):
    def looks(self, change, name="settles-in-a-box"):
        tree = scenes.scene_of((SCENES / (name + ".json")).read_bytes())
        del tree["families"], tree["off"]
        for clump in tree["clumps"]:
            del clump["family"]
        change(tree)
        status, out, _ = ran("check-scene", self.file("scene.json", scenes.text_of(tree).encode()))
        return status, [it for it in out.splitlines() if it.startswith("look: ")]

    def test_a_good_scene(self):
        self.assertEqual(ran("check-scene", SCENES / "packing-comes-to-rest.json")[0], 0)

    def test_a_refused_scene(self):
        status, out, _ = ran("check-scene", SCENES / "refused-misspelt-gravity.json")
        self.assertEqual(status, 2)
        self.assertTrue(out.startswith((SCENES / "refused-misspelt-gravity.note").read_text(encoding="utf-8").rstrip("\n")))

    def finds(self, wanted, change):
        status, found = self.looks(change)
        self.assertEqual(status, 1)
        self.assertTrue(any(wanted in it for it in found), found)

    def test_looks(self):
        self.finds("behind wall 0", lambda tree: tree["walls"][0]["plane"].update(dir=[0, 0, -1]))
        self.finds("overlap at the start", lambda tree: tree["clumps"][1].update(p=tree["clumps"][2]["p"]))
        self.finds("has the moment", lambda tree: tree["templates"][0].update(moments=[1, 1, 1]))
        self.finds("moments of no body", lambda tree: tree["templates"][0].update(moments=[4 * 10**9, 4 * 10**9, 10**10]))
        self.finds("told in voxels", lambda tree: tree.update(box=[2**20] * 3))
        self.finds("Rayleigh", lambda tree: tree["materials"][0].update(kn=2**28, kt=2**28))
        self.finds("that falls to the end of the box", lambda tree: tree.update(speed=2**16))
        self.finds("in a step", lambda tree: tree.update(speed=2**32))
        self.finds("positions move by whole u", lambda tree: None)

    def test_rayleigh_share(self):
        """The scenes of use have a step of 0.1 ms, and Rayleigh's time is 0.51 ms."""
        self.assertIn("a step is 0.195 of", ran("check-scene", SCENES / "packing-comes-to-rest.json")[1])


class Faults(unittest.TestCase):
    """A fault is status 2 and one line, never a traceback."""

    TOOLS = {"forces": (), "to-vtk": ("--to", "nowhere"), "to-xyz": (), "to-scene": ()}

    def fault(self, tool, *words, given=b""):
        status, _, notes = ran(tool, *words, given=given)
        self.assertEqual((status, notes.count("\n"), notes.startswith(tool + ": ")), (2, 1, True), (tool, notes))

    def test_no_file_no_scene_no_frames(self):
        with tempfile.TemporaryDirectory() as folder:
            for tool, more in self.TOOLS.items():
                more = [folder if it == "nowhere" else it for it in more]
                self.fault(tool, "no-such-file", *more)
                self.fault(tool, SCENES / "refused-cut-short.json", *more)
                self.fault(tool, SCENES / "rebounds.json", "no-such-file", *more)
                self.fault(tool, SCENES / "rebounds.json", *more, given=b"frame,0\nclump,0,1\n")
                self.fault(tool, SCENES / "rebounds.json", *more, given=b"hello\n")
                self.fault(tool, SCENES / "overlap-of-one.json", REBOUNDS.with_suffix(".frames"), *more)
                self.fault(tool, TOP, *more)

    def test_help(self):
        for tool in (*self.TOOLS, "units", "check-scene", "last-frame"):
            status, out, notes = ran(tool, "--help")
            self.assertEqual((status, notes), (0, ""))
            self.assertIn("tools/" + tool, out)


if __name__ == "__main__":
    unittest.main()
