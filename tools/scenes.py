"""Reads a scene's text as docs/formats.md tells, of version 1 and 2: the whole scene with its defaults, or its first fault.

`read_scene` gives the tree of the text in which nothing is left out, so that `scene["clumps"][0]["q"]` is always there.
"""
import collections
import difflib
import json
import math

from command import Fault, read_bytes
from vectors import ONE, VOXEL, matrix, plus, turned

LONGEST = 16_777_216  # bytes of a text
DEEPEST = 127  # levels of brackets that the program's reader takes
SPHERES = 32_768  # of all clumps
FAMILIES = 16  # from version 2 on

# a sphere of the run: the clump and the template's sphere that it is
Sphere = collections.namedtuple("Sphere", "clump at r mat")


class Refused(Fault):
    """The first fault of a text: the program's own line, and a hint that the program doesn't give."""

    def __init__(self, line, hint=""):
        super().__init__("scene: " + line + (" (%s)" % hint if hint else ""))
        self.line, self.hint = "scene: " + line, hint


# ---- one value of a kind: spot is the place's name and its two numbers


def refused(kind, spot, hint=""):
    return Refused("%s %s %d %d" % (kind, *spot), hint)


def members(tree, names, spot):
    """An object with no names but these; it is copied, since defaults are put in."""
    if not isinstance(tree, dict):
        raise refused("field", spot, "it has to be an object, in { }")
    for name in tree:
        if name not in names:
            near = difflib.get_close_matches(name, names, 1)
            raise refused("unknown", spot, '"%s" is no name here' % name + (', "%s" is' % near[0] if near else ""))
    return dict(tree)


def value_of(tree, name, spot, default):
    """The value of a name, or its default, which may be None where the name is required."""
    if name in tree:
        return tree[name]
    if default is None:
        raise refused("field", spot, '"%s" is missing' % name)
    return default


def is_whole(value):
    return type(value) is int and -(2**63) <= value < 2**63


def hint_of(value):
    """What is usually meant where a whole number is asked for."""
    if isinstance(value, float):
        return "whole numbers stand without point and exponent"
    return "a whole number is asked for"


def whole(tree, name, spot, low, high, default=None):
    value = value_of(tree, name, spot, default)
    if not is_whole(value):
        raise refused("field", spot, hint_of(value))
    if not low <= value <= high:
        raise refused("range", spot, "%d isn't from %d to %d" % (value, low, high))
    tree[name] = value


def vector(tree, name, spot, low, high, default=None, count=3):
    value = value_of(tree, name, spot, default)
    if not isinstance(value, list) or len(value) != count or not all(map(is_whole, value)):
        raise refused("field", spot, "a list of %d whole numbers is asked for" % count)
    for one in value:
        if not low <= one <= high:
            raise refused("range", spot, "%d isn't from %d to %d" % (one, low, high))
    tree[name] = list(value)


def items(tree, name, spot, low, high, default=None):
    value = value_of(tree, name, spot, default)
    if not isinstance(value, list):
        raise refused("field", spot, "a list is asked for")
    if not low <= len(value) <= high:
        raise refused("count", spot, "%d elements aren't %d to %d" % (len(value), low, high))
    tree[name] = list(value)


def index(tree, name, spot, count, of):
    value = value_of(tree, name, spot, None)
    if not is_whole(value):
        raise refused("field", spot, hint_of(value))
    if not 0 <= value < count:
        raise refused("index", spot, "there are %d %s, numbered from 0" % (count, of))


# ---- the objects of a scene, in the order of the table


def material(tree, i):
    tree = members(tree, ("kn", "kt", "bn", "bt", "mu", "mr"), ("materials", i, 0))
    whole(tree, "kn", ("materials.kn", i, 0), 1, 2**28)
    whole(tree, "kt", ("materials.kt", i, 0), 0, 2**28, 0)
    for name in ("bn", "bt", "mu", "mr"):
        whole(tree, name, ("materials." + name, i, 0), 0, 2**18, 0)
    return tree


def ball(tree, i, j, materials):
    place = "templates.spheres"
    tree = members(tree, ("at", "r", "mat"), (place, i, j))
    vector(tree, "at", (place + ".at", i, j), -(2**26), 2**26)
    whole(tree, "r", (place + ".r", i, j), 1, 2**26)
    index(tree, "mat", (place + ".mat", i, j), materials, "materials")
    return tree


def template(tree, i, materials):
    tree = members(tree, ("mass", "moments", "spheres"), ("templates", i, 0))
    whole(tree, "mass", ("templates.mass", i, 0), 1, 2**40)
    vector(tree, "moments", ("templates.moments", i, 0), 1, 2**62)
    items(tree, "spheres", ("templates.spheres", i, 0), 1, 16)
    tree["spheres"] = [ball(it, i, j, materials) for j, it in enumerate(tree["spheres"])]
    return tree


def plane(tree, i):
    tree = members(tree, ("at", "dir"), ("walls.plane", i, 0))
    vector(tree, "at", ("walls.plane.at", i, 0), 0, 2**36)
    vector(tree, "dir", ("walls.plane.dir", i, 0), -(2**20), 2**20)
    if not any(tree["dir"]):
        raise refused("range", ("walls.plane.dir", i, 0), "the direction in which the plane pushes, as [0, 0, 1]")
    return tree


def cylinder(tree, i, widest):
    tree = members(tree, ("axis", "at", "r"), ("walls.cylinder", i, 0))
    if value_of(tree, "axis", ("walls.cylinder.axis", i, 0), None) not in ("x", "y", "z"):
        raise refused("field", ("walls.cylinder.axis", i, 0), 'the axis is "x", "y" or "z"')
    vector(tree, "at", ("walls.cylinder.at", i, 0), 0, 2**36)
    whole(tree, "r", ("walls.cylinder.r", i, 0), 1, 2**35)
    if tree["r"] <= widest:
        raise refused("range", ("walls.cylinder.r", i, 0), "it has to be greater than the greatest radius, %d" % widest)
    return tree


def wall(tree, i, materials, widest):
    tree = members(tree, ("plane", "cylinder", "mat"), ("walls", i, 0))
    if ("plane" in tree) == ("cylinder" in tree):
        raise refused("field", ("walls.form", i, 0), "a wall is exactly one of plane and cylinder")
    if "plane" in tree:
        tree["plane"] = plane(tree["plane"], i)
    else:
        tree["cylinder"] = cylinder(tree["cylinder"], i, widest)
    index(tree, "mat", ("walls.mat", i, 0), materials, "materials")
    return tree


def family(tree, i, last):
    tree = members(tree, ("id", "v", "w"), ("families", i, 0))
    whole(tree, "id", ("families.id", i, 0), 0, FAMILIES - 1)
    if tree["id"] <= last:
        raise refused("range", ("families.id", i, 0), "the ids have to ascend")
    vector(tree, "v", ("families.v", i, 0), -(2**40), 2**40)
    vector(tree, "w", ("families.w", i, 0), -(2**28), 2**28)
    return tree


def families(trees):
    last, found = -1, []
    for i, tree in enumerate(trees):
        found.append(family(tree, i, last))
        last = found[-1]["id"]
    return found


def off(pairs):
    """The pairs of families that don't meet."""
    for i, pair in enumerate(pairs):
        vector({"off": pair}, "off", ("off", i, 0), 0, FAMILIES - 1, count=2)
    return pairs


def clump(tree, i, templates, version):
    names = ("t", "family", "p", "v", "q", "w")
    tree = members(tree, names if version == 2 else tuple(it for it in names if it != "family"), ("clumps", i, 0))
    index(tree, "t", ("clumps.t", i, 0), templates, "templates")
    whole(tree, "family", ("clumps.family", i, 0), 0, FAMILIES - 1, 0)
    vector(tree, "p", ("clumps.p", i, 0), 0, 2**36 - 1)
    vector(tree, "v", ("clumps.v", i, 0), -(2**40), 2**40, [0, 0, 0])
    vector(tree, "q", ("clumps.q", i, 0), -(2**31), 2**31, [ONE, 0, 0, 0], count=4)
    if not 2**58 <= sum(it * it for it in tree["q"]) <= 2**62:
        raise refused("range", ("clumps.q", i, 0), "its length has to be about 2^30, as of [1073741824, 0, 0, 0]")
    vector(tree, "w", ("clumps.w", i, 0), -(2**28), 2**28, [0, 0, 0])
    return tree


def clumps(tree):
    found, count = [], 0
    for i, one in enumerate(tree["clumps"]):
        found.append(clump(one, i, len(tree["templates"]), tree["version"]))
        count += len(tree["templates"][found[-1]["t"]]["spheres"])
        if count > SPHERES:
            raise refused("count", ("clumps.total", i, 0), "all clumps together have at most %d spheres" % SPHERES)
    return found


def head(tree):
    """The scene as an object, with the numbers at its head."""
    names = ("version", "box", "steps", "every", "speed", "spin", "gravity", "materials", "templates", "walls", "clumps")
    is_second = isinstance(tree, dict) and tree.get("version") == 2 and is_whole(tree["version"])
    tree = members(tree, (*names, "families", "off") if is_second else names, ("scene", 0, 0))
    if not is_whole(value_of(tree, "version", ("version", 0, 0), None)):
        raise refused("field", ("version", 0, 0), hint_of(tree["version"]))
    if tree["version"] not in (1, 2):
        raise Refused("version", "1 and 2 are the versions of this format")
    vector(tree, "box", ("box", 0, 0), 1, 2**20)
    whole(tree, "steps", ("steps", 0, 0), 0, 10**9)
    whole(tree, "every", ("every", 0, 0), 1, 10**9)
    whole(tree, "speed", ("speed", 0, 0), 1, 2**40)
    whole(tree, "spin", ("spin", 0, 0), 1, 2**28)
    vector(tree, "gravity", ("gravity", 0, 0), -(2**20), 2**20, [0, 0, 0])
    return tree


def table(tree):
    """The whole table of names, from top to bottom."""
    tree = head(tree)
    items(tree, "materials", ("materials", 0, 0), 1, 64)
    tree["materials"] = [material(it, i) for i, it in enumerate(tree["materials"])]
    count = len(tree["materials"])
    items(tree, "templates", ("templates", 0, 0), 1, 256)
    tree["templates"] = [template(it, i, count) for i, it in enumerate(tree["templates"])]
    widest = max(it["r"] for kind in tree["templates"] for it in kind["spheres"])
    items(tree, "walls", ("walls", 0, 0), 0, 64, [])
    tree["walls"] = [wall(it, i, count, widest) for i, it in enumerate(tree["walls"])]
    items(tree, "families", ("families", 0, 0), 0, FAMILIES, [])
    tree["families"] = families(tree["families"])
    items(tree, "off", ("off", 0, 0), 0, FAMILIES * (FAMILIES + 1) // 2, [])
    tree["off"] = off(tree["off"])
    items(tree, "clumps", ("clumps", 0, 0), 1, 16384)
    tree["clumps"] = clumps(tree)
    return tree


# ---- after the table: limits and box


def is_over(v, most):
    return any(abs(it) > most for it in v)


def leaves_box(scene, spot):
    return any(not 0 <= at < edge * VOXEL for at, edge in zip(spot, scene["box"]))


def centers_of(scene, body, kind):
    """The centers of a clump's spheres in world axes, from its position and quaternion."""
    rows = matrix(body["q"])
    return [plus(body["p"], turned(rows, it["at"])) for it in kind["spheres"]]


def hold_limits(scene):
    for i, body in enumerate(scene["clumps"]):
        if is_over(body["v"], scene["speed"]):
            raise Refused("over limit %d" % i, "its velocity is over the speed limit, %d" % scene["speed"])
        if is_over(body["w"], scene["spin"]):
            raise Refused("over limit %d" % i, "its spin is over the spin limit, %d" % scene["spin"])
        spots = [body["p"], *centers_of(scene, body, scene["templates"][body["t"]])]
        if any(leaves_box(scene, spot) for spot in spots):
            raise Refused("outside box %d" % i, "the box is told in voxels of 65536 u: here %s u" % [it * VOXEL for it in scene["box"]])


# ---- the text


def number(digits):
    """A whole number of 64 bits, or one that is none."""
    if len(digits) > 308 and math.isinf(real(digits)):
        raise ValueError("a number past 2^1024")
    if digits == "-0" or len(digits) > 20 or not is_whole(int(digits)):
        return real(digits)
    return int(digits)


def real(digits):
    found = float(digits)
    if math.isinf(found):
        raise ValueError("the number %s.. is past 2^1024" % digits[:20])
    return found


def no_number(word):
    raise ValueError("%s is no JSON, though Python's own reader takes it" % word)


def depth(text):
    """How deeply brackets lie in each other, outside of strings."""
    level, deepest, is_string, is_escaped = 0, 0, False, False
    for letter in text:
        if is_string:
            is_string = is_escaped or letter != '"'
            is_escaped = letter == "\\" and not is_escaped
        elif letter in '"':
            is_string = True
        elif letter in "[{":
            level += 1
            deepest = max(deepest, level)
        elif letter in "]}":
            level -= 1
    return deepest


def cause(text, at):
    """The usual cause of a fault at a place of a text."""
    rest = text[at:].lstrip()
    before = text[:at].rstrip()
    if not text.strip():
        return "nothing came at all"
    if rest.startswith(("//", "/*", "#")):
        return "JSON has no comments"
    if before.endswith(",") and rest[:1] in ("]", "}"):
        return "a comma stands before the closing bracket"
    if rest.startswith("'"):
        return "JSON has double quotes alone"
    if not rest:
        return "the text ends too early: a bracket isn't closed"
    if rest[:1] in '"{[' or rest[:1].isalnum() or rest[:1] == "-":
        return "a comma or a colon is missing, or a name stands without quotes"
    return "this isn't JSON"


def not_json(hint):
    return Refused("not JSON", hint)


def tree_of(text):
    """The tree of a JSON text."""
    if text.startswith("\ufeff"):
        raise not_json("line 1: the text begins with a byte order mark, U+FEFF: save it without")
    if text.count("[") + text.count("{") > DEEPEST and depth(text) > DEEPEST:
        raise not_json("values lie in each other %d deep or more" % (DEEPEST + 1))
    try:
        tree = json.loads(text, parse_int=number, parse_float=real, parse_constant=no_number)
        json.dumps(tree, ensure_ascii=False).encode()
        return tree
    except json.JSONDecodeError as why:
        raise not_json("line %d, column %d: %s" % (why.lineno, why.colno, cause(text, why.pos))) from None
    except UnicodeEncodeError:
        raise not_json("half of a surrogate pair stands alone") from None
    except ValueError as why:
        raise not_json(str(why)) from None


def scene_of(data):
    """The scene that bytes are, with all that may be left out."""
    if len(data) > LONGEST:
        raise Refused("longer than %d bytes" % LONGEST, "write numbers and lists without spaces")
    try:
        text = data.decode("utf-8")
    except UnicodeDecodeError as why:
        raise not_json("byte %d isn't UTF-8" % (why.start + 1)) from None
    scene = table(tree_of(text))
    hold_limits(scene)
    return scene


def read_scene(name):
    """The scene of a file, or of standard input where the name is -."""
    try:
        return scene_of(read_bytes(name))
    except Refused as why:
        raise Fault("%s: %s" % (name, why)) from None


def spheres_of(scene):
    """All spheres, numbered through all clumps in order."""
    return [Sphere(i, it["at"], it["r"], it["mat"]) for i, one in enumerate(scene["clumps"]) for it in scene["templates"][one["t"]]["spheres"]]


def text_of(tree):
    """A scene's text: a line for each name, and one for each element of a list of objects."""
    rows = []
    for name, value in tree.items():
        if isinstance(value, list) and value and isinstance(value[0], dict):
            rows.append('  "%s": [\n%s\n  ]' % (name, ",\n".join("    " + json.dumps(it) for it in value)))
        else:
            rows.append('  "%s": %s' % (name, json.dumps(value)))
    return "{\n%s\n}\n" % ",\n".join(rows)
