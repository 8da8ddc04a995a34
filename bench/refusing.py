"""A library for the measurements that refuse memory: loaded before a program, it asks at each allocation whether to refuse it.

Nothing here is part of the gate.
"""
import os
import subprocess
import sys
import tempfile

# `is_refused` stands before this, and says whether the allocation that is being made is to be refused.
WRAPPERS = r"""
void *malloc(size_t size) {
    static void *(*real)(size_t);
    if (!real) real = dlsym(RTLD_NEXT, "malloc");
    return is_refused() ? NULL : real(size);
}

void *realloc(void *old, size_t size) {
    static void *(*real)(void *, size_t);
    if (!real) real = dlsym(RTLD_NEXT, "realloc");
    return is_refused() ? NULL : real(old, size);
}

void *aligned_alloc(size_t by, size_t size) {
    static void *(*real)(size_t, size_t);
    if (!real) real = dlsym(RTLD_NEXT, "aligned_alloc");
    return is_refused() ? NULL : real(by, size);
}

int posix_memalign(void **to, size_t by, size_t size) {
    static int (*real)(void **, size_t, size_t);
    if (!real) real = dlsym(RTLD_NEXT, "posix_memalign");
    return is_refused() ? 12 : real(to, by, size);
}
"""


def library(folder, is_refused):
    """The library, built in a folder from the C text that has `is_refused` and what it needs."""
    source, made = f"{folder}/refused.c", f"{folder}/refused.so"
    with open(source, "w", encoding="utf-8") as out:
        out.write("#define _GNU_SOURCE\n#include <dlfcn.h>\n" + is_refused + WRAPPERS)
    subprocess.run(["cc", "-O1", "-shared", "-fPIC", "-o", made, source, "-ldl"], check=True)
    return made


def put_out(words, source, **more):
    """The status and the output of a program whose input is a file."""
    with open(source, "rb") as held, tempfile.TemporaryFile() as out:
        status = subprocess.run(words, stdin=held, stdout=out, stderr=subprocess.DEVNULL, check=False, **more).returncode
        out.seek(0)
        return status, out.read()


def refusals(words, source, refusing):
    """Of a run that forks at each allocation, where the fork is refused it: its number, how the fork ended, what it put out, and what the run
    itself put out from there on."""
    whole = put_out(words, source)
    with tempfile.TemporaryDirectory(prefix="refused-") as folder:
        if put_out(words, source, env={**os.environ, "LD_PRELOAD": refusing, "REFUSED_IN": folder}) != whole:
            sys.exit(f"{words[0]}: the run itself gave something else")
        with open(f"{folder}/log", encoding="utf-8") as log:
            for line in log:
                number, status, before = map(int, line.split())
                with open(f"{folder}/{number}", "rb") as put:
                    yield number, os.waitstatus_to_exitcode(status), put.read(), whole[1][before:]
                os.remove(f"{folder}/{number}")


def report(heads, is_refused, subjects, tried):
    """Prints a row for each subject, its name and the cells that `tried` makes of it and the library, and what was wrong; 1 where something was."""
    print(f"| {' | '.join(heads)} |\n|{'---|' * len(heads)}")
    failed = False
    with tempfile.TemporaryDirectory(prefix="refused-") as folder:
        refusing = library(folder, is_refused)
        for subject in subjects:
            cells, wrong = tried(subject, refusing)
            print(f"| {' | '.join(map(str, cells))} |", flush=True)
            for it in wrong[:8]:
                print(f"wrong: {subject}: {it}", file=sys.stderr)
            failed = failed or bool(wrong)
    return 1 if failed else 0
