#!/usr/bin/env python3
"""Refuses each request for memory of ./show in turn, and compares what it prints with what it prints otherwise.

    bench/gate/refused.py [--program FILE]

A run in which one request was refused must end as the run with all memory does, where the program can do without the
memory. Otherwise it must end with status 3, with a beginning of all on standard output and `out of memory` on standard
error.

The script runs the proved build over a malloc that refuses one request, or the given program. The C compiler makes that
malloc. Where there is no compiler, the script says so and runs nothing.
"""
import os
import shutil
import sys
import tempfile
from pathlib import Path

sys.path.insert(0, str(Path(__file__).resolve().parents[1]))
from common import chosen, ended, ran

MALLOC = r"""
#include <errno.h>
#include <stdlib.h>
#include <string.h>
#include <unistd.h>
extern void *__libc_malloc(size_t), *__libc_calloc(size_t, size_t), *__libc_realloc(void *, size_t), *__libc_memalign(size_t, size_t);
static long count, refused = -1;
static int refuses(void) {
    if (refused < 0) { const char *at = getenv("REFUSED"); refused = at ? atol(at) : 0; }
    return ++count == refused;
}
void *malloc(size_t n) { return refuses() ? 0 : __libc_malloc(n); }
void *calloc(size_t n, size_t m) { return refuses() ? 0 : __libc_calloc(n, m); }
void *realloc(void *p, size_t n) { return refuses() ? 0 : __libc_realloc(p, n); }
void *aligned_alloc(size_t a, size_t n) { return refuses() ? 0 : __libc_memalign(a, n); }
int posix_memalign(void **p, size_t a, size_t n) {
    if (refuses()) return ENOMEM;
    *p = __libc_memalign(a, n);
    return *p ? 0 : ENOMEM;
}
static void __attribute__((destructor)) tell(void) {
    const char *file = getenv("REQUESTS");
    if (!file || getenv("REFUSED")) return;
    char digits[24]; int at = 24; long n = count;
    do { digits[--at] = '0' + n % 10; n /= 10; } while (n);
    write(atoi(file), digits + at, 24 - at);
}
"""
# The words, and the contents of the files.
RUNS = [
    ["text.typ"],
    ["text.typ", "--views"],
    ["text.typ", "--edits", "e"],
    ["text.typ", "--kind", "text", "--places"],
    ["text.typ", "--depth", "1", "--lines", "1-2", "--places"],
    ["text.typ", "--edits", "e", "--plain"],
    ["text.typ", "--edits", "e", "--page", "-"],
    ["long.typ", "--page", "-"],
    ["a.script"],
    ["a.look", "--views"],
    ["--help"],
]
FILES = {
    "text.typ": "= A\n\n*b `c\n",
    "long.typ": "= A\n\n*b* `c`\n\n" * 50,  # its page is written in several pieces
    "e": '2..3 "B"\n',
    "a.script": "leaf 6 a\nleaf 6 b\ninner 5 2\nroot\nnumber 1 2 99\nleaf 6 c\nreplace - 1 1 1\nfind 1 6\nrun\n",
    "a.look": "leaf 6 a\nwarnat 0 1 b\nhint c\nerror d\te\nhintat 0 1 f\ninner 5 2\nroot\nlook views\nmark x\n",
}


def over(room, command, settings, **how):
    """A run over the malloc that refuses, which these settings tell what to do."""
    env = {"PATH": os.environ["PATH"], "LD_PRELOAD": str(Path(room, "refusing.so")), **settings}
    return ran(command, cwd=room, env=env, **how)


def requests_of(command, room):
    """How many requests a run makes, what it prints with memory at hand, and its status."""
    ours, theirs = os.pipe()
    done = over(room, command, {"REQUESTS": str(theirs)}, pass_fds=[theirs])
    os.close(theirs)
    with os.fdopen(ours) as told:
        return int(told.read() or 0), done.stdout, done.returncode


def differences(program, words, room):
    """How many requests the program makes for these words, and what differs where one of them is refused."""
    command = [program, *words]
    count, whole, status = requests_of(command, room)
    wrong = [] if count and whole and status in (0, 1) else [f"{words}: {count} requests, {len(whole)} bytes are printed, and the status is {status}"]
    for at in range(1, count + 1):
        done = over(room, command, {"REFUSED": str(at)})
        said = done.stderr.decode()
        is_whole = (done.returncode, said, done.stdout) == (status, "", whole)
        is_cut = done.returncode == 3 and "out of memory" in said and said.count("\n") == 1 and whole.startswith(done.stdout)
        if not is_whole and not is_cut:
            wrong.append(f"{words}, request {at}: status {done.returncode}, {said!r}, {done.stdout[-80:]!r}")
    return count, wrong


def main():
    program, _ = chosen(__doc__, "typst_show")
    compiler = shutil.which("cc")
    if not compiler:
        print("no C compiler is here, so no request was refused")
        return 0
    with tempfile.TemporaryDirectory() as room:
        source = Path(room, "refusing.c")
        source.write_text(MALLOC)
        ran([compiler, "-O1", "-w", "-shared", "-fPIC", "-o", Path(room, "refusing.so"), source]).check_returncode()
        for name, text in FILES.items():
            Path(room, name).write_text(text)
        found = [differences(program, words, room) for words in RUNS]
    wrong = [line for _, lines in found for line in lines]
    return ended(wrong, f"{sum(count for count, _ in found)} requests of ./show refused in turn, {len(wrong)} differences")


if __name__ == "__main__":
    sys.exit(main())
