#!/usr/bin/env python3
"""Refuses each allocation of a script in turn, once: `mdnsd script` has to end with 6, and with a beginning of the right output, or else, where it
can do without that memory (a buffer that is as large as the input, say), with 0 and all of it.

    python3 bench/refused.py [PROGRAM] [SCRIPT ..]

PROGRAM is crates/mdnsd/out/mdnsd where none is given, and the scripts are those of examples/ that have a transcript. It wants a C compiler
(cc): a small library that is loaded before the program forks it at each allocation, and in the fork refuses that one and lets it run to its
end. One table is printed; it ends with 1 where something else came. Nothing here is part of the gate.
"""
import functools
import glob
import os
import sys
from collections import Counter

from refusing import refusals, report
from tools import TOP

# Each line of the log has the number of the allocation, how the fork ended, and how many bytes the program had put out before it.
IS_REFUSED = r"""
#include <stdio.h>
#include <stdlib.h>
#include <string.h>
#include <sys/wait.h>
#include <fcntl.h>
#include <unistd.h>

static unsigned long count;
static int log_to = -1, is_fork, is_inside;
static char folder[512];

static void begin(void) __attribute__((constructor));
static void begin(void) {
    const char *at = getenv("REFUSED_IN");
    if (!at || strlen(at) > 400) return;
    strcpy(folder, at);
    char path[512];
    snprintf(path, sizeof path, "%s/log", folder);
    log_to = open(path, O_WRONLY | O_CREAT | O_APPEND, 0600);
}

/* Whether this allocation is to be refused: in the fork, once. */
static int is_refused(void) {
    if (log_to < 0 || is_fork || is_inside) return 0;
    is_inside = 1;
    unsigned long number = ++count;
    long before = lseek(1, 0, SEEK_CUR);
    pid_t child = fork();
    if (child == 0) {
        char path[512];
        snprintf(path, sizeof path, "%s/%lu", folder, number);
        /* Its own places in input and output, so that it moves none of the program's. */
        int to = open(path, O_WRONLY | O_CREAT | O_TRUNC, 0600);
        int from = open("/proc/self/fd/0", O_RDONLY);
        if (to < 0 || from < 0 || lseek(from, lseek(0, 0, SEEK_CUR), SEEK_SET) < 0) abort();
        dup2(to, 1);
        dup2(from, 0);
        is_fork = 1;
        is_inside = 0;
        return 1;
    }
    int status = -1;
    if (child > 0) waitpid(child, &status, 0);
    char line[96];
    int length = snprintf(line, sizeof line, "%lu %d %ld\n", number, status, before);
    if (write(log_to, line, length) != length) abort();
    is_inside = 0;
    return 0;
}

"""


def tried(program, script, refusing):
    """Refuses each allocation of a script: the cells of its row, and what was wrong."""
    ends, wrong = Counter(), []
    for number, ended, said, rest in refusals([program, "script"], script, refusing):
        ends[ended] += 1
        if (ended != 6 or not rest.startswith(said)) and (ended, said) != (0, rest):
            wrong.append(f"allocation {number}: ended with {ended}")
    return [os.path.basename(script), sum(ends.values()), ends[6], ends[0]], wrong


def main(words):
    program = words[0] if words else f"{TOP}/crates/mdnsd/out/mdnsd"
    scripts = words[1:] or sorted(it for it in glob.glob(f"{TOP}/examples/*.script") if os.path.isfile(it.replace(".script", ".transcript")))
    heads = ["Script", "Allocations, each refused once", "Ended with 6 and a beginning of the output", "Did without, with 0 and all of it"]
    return report(heads, IS_REFUSED, scripts, functools.partial(tried, program))


if __name__ == "__main__":
    sys.exit(main(sys.argv[1:]))
