"""Runs the program with calls of the C library that fail or do less: the Nth allocation, the Nth read of standard input, the Nth write to
standard output or standard error; or each of its reads and writes moves at most so many bytes. For scripts alone: it is compiled anew by the
C compiler of the machine, into a folder that is taken away at the end, and loaded before the C library.
"""
import os
import pathlib
import shutil
import subprocess
import sys
import tempfile

PROGRAM = pathlib.Path(__file__).resolve().parent.parent / "crates" / "dem" / "out" / "dem"
SECONDS = 60

SOURCE = r"""
#define _GNU_SOURCE
#include <errno.h>
#include <stdatomic.h>
#include <stdlib.h>
#include <sys/syscall.h>
#include <unistd.h>

extern void *__libc_malloc(size_t);
extern void *__libc_realloc(void *, size_t);

static atomic_ulong allocated, moved[3];
static unsigned long allocation, call[3], most, told;

static unsigned long number(const char *name)
{
    const char *text = getenv(name);
    return text ? strtoul(text, NULL, 10) : 0;
}

__attribute__((constructor)) static void begin(void)
{
    allocation = number("FAIL_ALLOCATION");
    call[0] = number("FAIL_0");
    call[1] = number("FAIL_1");
    call[2] = number("FAIL_2");
    most = number("MOST");
    told = number("TOLD");
    allocated = 0;
}

/* Whether this call is the one that fails; if so, that is told. */
static int fails(atomic_ulong *made, unsigned long which, int why)
{
    if (atomic_fetch_add(made, 1) + 1 != which)
        return 0;
    syscall(SYS_write, told, "!", 1);
    errno = why;
    return 1;
}

static size_t less(int file, size_t size)
{
    return file <= 2 && most && size > most ? most : size;
}

void *malloc(size_t size)
{
    return fails(&allocated, allocation, ENOMEM) ? NULL : __libc_malloc(size);
}

void *realloc(void *old, size_t size)
{
    return fails(&allocated, allocation, ENOMEM) ? NULL : __libc_realloc(old, size);
}

ssize_t read(int file, void *to, size_t size)
{
    if (file == 0 && fails(&moved[0], call[0], EIO))
        return -1;
    return syscall(SYS_read, file, to, less(file, size));
}

ssize_t write(int file, const void *from, size_t size)
{
    if ((file == 1 || file == 2) && fails(&moved[file], call[file], EIO))
        return -1;
    return syscall(SYS_write, file, from, less(file, size));
}

ssize_t __write(int file, const void *from, size_t size)
{
    return write(file, from, size);
}
"""


def compiler():
    """The C compiler of the machine."""
    return next(filter(None, map(shutil.which, ("cc", "gcc", "clang"))), None)


class Preload:
    """What is loaded before the C library, while the block lasts."""

    def __enter__(self):
        if not PROGRAM.exists():
            sys.exit("%s: the program isn't built: rt ci and ./dem build it" % pathlib.Path(sys.argv[0]).name)
        if not compiler():
            sys.exit("%s: there is no C compiler" % pathlib.Path(sys.argv[0]).name)
        self.room = tempfile.TemporaryDirectory()
        source = pathlib.Path(self.room.name, "preload.c")
        self.library = source.with_suffix(".so")
        source.write_text(SOURCE, encoding="utf-8")
        subprocess.run([compiler(), "-O1", "-shared", "-fPIC", "-o", str(self.library), str(source)], check=True)
        return self

    def __exit__(self, *_):
        self.room.cleanup()

    def run(self, words, text, **calls):
        """Runs the program on a text, and tells what it came to and whether the call that was to fail was made."""
        told, tells = os.pipe()
        given = {name: str(value) for name, value in calls.items()}
        environment = {**os.environ, "LD_PRELOAD": str(self.library), "TOLD": str(tells), **given}
        try:
            ran = subprocess.run([str(PROGRAM), *words], input=text, capture_output=True, timeout=SECONDS, env=environment, pass_fds=(tells,))
        finally:
            os.close(tells)
        with os.fdopen(told, "rb") as pipe:
            return ran, bool(pipe.read())
