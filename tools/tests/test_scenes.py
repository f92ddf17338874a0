"""Texts of scenes: each kept refusal is refused by the same line, and each text of scripts/try-texts answered as its second reading does."""
import json
import unittest

from reading import SCENES, script

import scenes

SHORT = 100_000  # bytes of a text that is soon read
EACH = 9  # every ninth text of try-texts
SECOND = {"families": [{"id": 1, "v": [65536, 0, 0], "w": [0, 0, 0]}], "off": [[1, 0], [0, 1]]}


def line_of(data):
    """The refusal of bytes, or nothing."""
    try:
        scenes.scene_of(data)
        return ""
    except scenes.Refused as why:
        return why.line


def second(**more):
    """A scene of version 2, changed."""
    tree = json.loads((SCENES / "overlap-of-one.json").read_text(encoding="utf-8"))
    tree.update(version=2, **SECOND)
    tree["clumps"][1]["family"] = 1
    tree.update(more)
    return json.dumps(tree).encode()


class Refusals(unittest.TestCase):
    def test_kept_scenes(self):
        for file in sorted(SCENES.glob("*.json")):
            note = file.with_suffix(".note")
            wanted = note.read_text(encoding="utf-8").rstrip("\n") if note.exists() else ""
            with self.subTest(file.stem):
                self.assertEqual(line_of(file.read_bytes()), wanted)

    def test_texts_that_are_almost_right(self):
        texts = script("try-texts")
        every = (*texts.spoilt_places(texts.SCENE), *texts.spoilt_places(texts.SECOND), *texts.families(), *texts.spoilt_texts())
        every = [it for it in every if len(it) < SHORT]
        for text in every[::EACH]:
            told = texts.told(text)[2].rstrip("\n")
            self.assertEqual(line_of(text.encode()), told, text[:300])

    def test_bytes_that_are_no_json(self):
        for data in script("try-texts").refused_bytes():
            self.assertEqual(line_of(data), "scene: not JSON", data[:100])


class Hints(unittest.TestCase):
    TEXTS = {
        b"{\n  // a comment\n}": "line 2, column 3: JSON has no comments",
        b'{"a": [1, 2,]}': "line 1, column 13: a comma stands before the closing bracket",
        b'\xef\xbb\xbf{"a": 1}': "byte order mark",
        b'{"a": NaN}': "NaN is no JSON",
        b"": "nothing came at all",
        b'{"a": 1': "the text ends too early",
        b"{'a': 1}": "double quotes",
        b'{"a" 1}': "missing",
    }

    def test_causes(self):
        for data, wanted in self.TEXTS.items():
            with self.subTest(data), self.assertRaises(scenes.Refused) as caught:
                scenes.scene_of(data)
            self.assertIn(wanted, caught.exception.hint)

    def test_near_names(self):
        with self.assertRaises(scenes.Refused) as caught:
            scenes.scene_of(b'{"version": 1, "gravit": 0}')
        self.assertIn('"gravity" is', caught.exception.hint)


class SecondVersion(unittest.TestCase):
    def test_is_read(self):
        scene = scenes.scene_of(second())
        self.assertEqual([it["family"] for it in scene["clumps"]], [0, 1])
        self.assertEqual(scene["off"], [[1, 0], [0, 1]])

    def test_refusals(self):
        motion = SECOND["families"][0]
        cases = {
            "scene: range families.id 1 0": {"families": [motion, motion]},
            "scene: range families.id 0 0": {"families": [{**motion, "id": 16}]},
            "scene: field families.v 0 0": {"families": [{"id": 1, "w": [0, 0, 0]}]},
            "scene: field off 1 0": {"off": [[0, 1], [0]]},
            "scene: range off 0 0": {"off": [[0, 16]]},
            "scene: count off 0 0": {"off": [[0, 1]] * 137},
            "scene: unknown scene 0 0": {"version": 1},
        }
        for wanted, change in cases.items():
            with self.subTest(wanted):
                self.assertEqual(line_of(second(**change)), wanted)

    def test_a_third_version_isnt_there(self):
        tree = json.loads(second(version=3))
        del tree["families"], tree["off"], tree["clumps"][1]["family"]
        self.assertEqual(line_of(json.dumps(tree).encode()), "scene: version")

    def test_the_first_version_has_no_families(self):
        tree = json.loads((SCENES / "overlap-of-one.json").read_text(encoding="utf-8"))
        tree["clumps"][1]["family"] = 0
        self.assertEqual(line_of(json.dumps(tree).encode()), "scene: unknown clumps 1 0")
        tree = json.loads((SCENES / "overlap-of-one.json").read_text(encoding="utf-8"))
        tree["materials"][0]["mr"] = 262145
        self.assertEqual(line_of(json.dumps(tree).encode()), "scene: range materials.mr 0 0")


if __name__ == "__main__":
    unittest.main()
