"""What every tool does alike: its words, its input, its faults. A fault is one line on standard error, never a traceback.

Status 0: done. Status 1: done, and something was found that wants a look. Status 2: wrong words, or an input that can't be used.
"""
import argparse
import os
import pathlib
import sys


class Fault(Exception):
    """Why a tool can't do its work, in one line."""


def words(purpose, *arguments, **options):
    """The reader of a tool's words: its purpose, and what stands below the list of options."""
    return argparse.ArgumentParser(
        prog=pathlib.Path(sys.argv[0]).name,
        description=purpose,
        formatter_class=argparse.RawDescriptionHelpFormatter,
        *arguments,
        **options,
    )


def read_bytes(name):
    """The bytes of a file, or of standard input where its name is - or None."""
    try:
        if name in (None, "-"):
            return sys.stdin.buffer.read()
        return pathlib.Path(name).read_bytes()
    except OSError as why:
        raise Fault("%s: %s" % (name or "standard input", why.strerror)) from None


def open_bytes(name):
    """The same as a stream that is read line by line, for outputs that don't fit the memory."""
    try:
        return sys.stdin.buffer if name in (None, "-") else open(name, "rb")
    except OSError as why:
        raise Fault("%s: %s" % (name, why.strerror)) from None


def note(text):
    """A line on standard error that isn't a fault."""
    print("%s: %s" % (pathlib.Path(sys.argv[0]).name, text), file=sys.stderr)


def closed():
    """Puts nothing in the place of a standard output that was closed, so that Python doesn't complain at its end."""
    os.dup2(os.open(os.devnull, os.O_WRONLY), sys.stdout.fileno())


def run(main):
    """Runs a tool to its exit status: None counts as 0, a fault as 2."""
    try:
        status = main() or 0
        sys.stdout.flush()
    except Fault as why:
        note(why)
        status = 2
    except BrokenPipeError:
        closed()
        note("standard output was closed before the end")
        status = 2
    except OSError as why:
        note("%s: %s" % (why.filename or "standard output", why.strerror))
        status = 2
    except KeyboardInterrupt:
        status = 130
    sys.exit(status)
