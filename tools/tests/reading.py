"""Where the tests find the repository and its scenes, and how they run a tool as a user does."""
import importlib.machinery
import importlib.util
import pathlib
import subprocess
import sys

TOOLS = pathlib.Path(__file__).resolve().parent.parent
TOP = TOOLS.parent
SCENES = TOP / "scenes"

sys.dont_write_bytecode = True
sys.path.insert(0, str(TOOLS))


def script(name):
    """A script of scripts/ as a module, without its last line where that is a bare `main()`."""
    path = TOP / "scripts" / name
    loader = importlib.machinery.SourceFileLoader(name.replace("-", "_"), str(path))
    module = importlib.util.module_from_spec(importlib.util.spec_from_loader(loader.name, loader))
    text = path.read_text(encoding="utf-8")
    if text.endswith("\nmain()\n"):
        text = text[: -len("main()\n")]
    exec(compile(text, str(path), "exec"), module.__dict__)
    return module


def ran(tool, *words, given=b""):
    """Status, output and notes of a tool."""
    done = subprocess.run([str(TOOLS / tool), *map(str, words)], input=given, capture_output=True, timeout=60, cwd=TOP)
    return done.returncode, done.stdout.decode(), done.stderr.decode()


def kept(name):
    """A kept scene and its kept frames, both read."""
    import frames
    import scenes

    scene = scenes.scene_of((SCENES / (name + ".json")).read_bytes())
    return scene, list(frames.read_frames(str(SCENES / (name + ".frames")), scene))
