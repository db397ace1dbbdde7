#!/usr/bin/env python3
"""Plays a script on a built dc_shell, each allocation failing in turn.

    python3 bench/memory/measure.py [PROGRAM] [SCRIPT]

PROGRAM is crates/dc_shell/out/dc_shell, which `rt run` in crates/dc_shell leaves there, and SCRIPT is script.txt beside
this file, which uses each command, each kind, crashes, a fuse and restarts. Where an allocation fails the program has
to end with status 5 and one line on standard error, and what it wrote has to be a front of what it writes with memory:
whole lines, no fewer than where an earlier allocation fails, and all but the last one where the last allocation does.
Prints how many runs did so, and each that didn't; ends with 1 if there was one. `cc` compiles what makes them fail."""
import os
import subprocess
import sys
import tempfile

HERE = os.path.dirname(os.path.abspath(__file__))
PROGRAM = sys.argv[1] if len(sys.argv) > 1 else os.path.join(HERE, "../../crates/dc_shell/out/dc_shell")
SCRIPT = sys.argv[2] if len(sys.argv) > 2 else os.path.join(HERE, "script.txt")
MOST = 100_000
NO_MEMORY = 5
TOLD = b"out of memory\n"

# The Nth call of the C library's allocator fails, where FAIL_AT is N; a file named by FAIL_SEEN is made when it does.
FAILING = """
#define _GNU_SOURCE
#include <dlfcn.h>
#include <errno.h>
#include <fcntl.h>
#include <stdlib.h>
#include <unistd.h>
static unsigned long calls;
static int fails(void) {
    const char *at = getenv("FAIL_AT");
    if (!at || ++calls != strtoul(at, 0, 10)) return 0;
    close(open(getenv("FAIL_SEEN"), O_CREAT | O_WRONLY, 0600));
    errno = ENOMEM;
    return 1;
}
void *malloc(size_t n) {
    static void *(*real)(size_t);
    if (!real) real = dlsym(RTLD_NEXT, "malloc");
    return fails() ? 0 : real(n);
}
void *realloc(void *old, size_t n) {
    static void *(*real)(void *, size_t);
    if (!real) real = dlsym(RTLD_NEXT, "realloc");
    return fails() ? 0 : real(old, n);
}
void *aligned_alloc(size_t place, size_t n) {
    static void *(*real)(size_t, size_t);
    if (!real) real = dlsym(RTLD_NEXT, "aligned_alloc");
    return fails() ? 0 : real(place, n);
}
int posix_memalign(void **out, size_t place, size_t n) {
    static int (*real)(void **, size_t, size_t);
    if (!real) real = dlsym(RTLD_NEXT, "posix_memalign");
    return fails() ? ENOMEM : real(out, place, n);
}
"""


def build(folder):
    """Compiles what makes allocations fail."""
    source, library = os.path.join(folder, "failing.c"), os.path.join(folder, "failing.so")
    with open(source, "w") as text:
        text.write(FAILING)
    subprocess.run(["cc", "-O1", "-shared", "-fPIC", "-o", library, source, "-ldl"], check=True)
    return library


def play(environment):
    """Plays the script once."""
    with open(SCRIPT, "rb") as source:
        return subprocess.run([PROGRAM, "play"], stdin=source, capture_output=True, env=environment)


def is_fine(run, whole, before):
    """Whether a run ended for want of memory, and wrote lines at the front of the whole, at least so many bytes."""
    ended = run.returncode == NO_MEMORY and run.stderr == TOLD
    front = whole.startswith(run.stdout) and run.stdout[-1:] in (b"", b"\n")
    return ended and front and before <= len(run.stdout)


def main():
    whole = play(dict(os.environ))
    failed, wrong, before = 0, 0, 0
    with tempfile.TemporaryDirectory() as folder:
        seen = os.path.join(folder, "seen")
        environment = dict(os.environ, LD_PRELOAD=build(folder), FAIL_SEEN=seen)
        for at in range(1, MOST):
            run = play(dict(environment, FAIL_AT=str(at)))
            if not os.path.exists(seen):
                break
            os.remove(seen)
            failed += 1
            if not is_fine(run, whole.stdout, before):
                wrong += 1
                print("allocation %d: status %d, %d bytes, %r" % (at, run.returncode, len(run.stdout), run.stderr))
            before = len(run.stdout)
    if whole.stdout.count(b"\n", before) != 1:
        wrong += 1
        print("where the last allocation fails, %d of %d bytes are written" % (before, len(whole.stdout)))
    print("%d bytes of replies; %d allocations failed, %d of them otherwise" % (len(whole.stdout), failed, wrong))
    sys.exit(1 if wrong or not failed else 0)


main()
