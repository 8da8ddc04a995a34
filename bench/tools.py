"""What the measurements share: a program built over some crates, its instructions under valgrind's callgrind, one table.

Nothing here is part of the gate.
"""
import os
import re
import shutil
import subprocess
import sys
import tempfile

TOP = os.path.dirname(os.path.dirname(os.path.abspath(__file__)))


def crate_of(line):
    """The crate that a line of crates.txt is of, its counts aside; nothing where it is of none."""
    return (line.partition(":")[0].split() or [""])[0]


def needs(lines, crate, found):
    """The crates of the repository that a crate stands on, itself too."""
    for line in lines:
        if crate_of(line) == crate and crate not in found:
            found.append(crate)
            for word in line.partition(":")[2].split():
                needs(lines, word, found)
    return found


def built(folder, files, stands_on):
    """Builds a program of these files over those crates, in a copy of them below the folder, and returns its path.

    The first time it takes some minutes, where those crates weren't built yet.
    """
    with open(os.path.join(TOP, "crates.txt"), encoding="utf-8") as listed:
        lines = list(listed)
    below = []
    for crate in stands_on.split():
        needs(lines, crate, below)
    with open(f"{folder}/crates.txt", "w", encoding="utf-8") as out:
        out.write("".join(line for line in lines if crate_of(line) in below) + f"measured: {stands_on}\n")
    shutil.copy(os.path.join(TOP, "HANDLES"), folder)
    for crate in below:
        shutil.copytree(os.path.join(TOP, "crates", crate), f"{folder}/crates/{crate}", symlinks=True)
    crate = f"{folder}/crates/measured"
    for path, text in files.items():
        os.makedirs(os.path.dirname(f"{crate}/{path}"), exist_ok=True)
        with open(f"{crate}/{path}", "w", encoding="utf-8") as out:
            out.write(text)
    ran = subprocess.run(["rt", "run", "--", "0", "1"], cwd=crate, capture_output=True, text=True)
    if not os.path.isfile(f"{crate}/out/measured"):
        sys.exit(ran.stdout + ran.stderr)
    return f"{crate}/out/measured"


def instructions(program, *words, standard_input=b""):
    """How many instructions the program takes with these words and this input; they are repeatable."""
    with tempfile.TemporaryDirectory() as folder:
        with open(f"{folder}/input", "wb+") as held:
            held.write(standard_input)
            held.seek(0)
            run = subprocess.run(
                ["valgrind", "--tool=callgrind", f"--callgrind-out-file={folder}/out", program, *map(str, words)],
                stdin=held, stdout=subprocess.DEVNULL, stderr=subprocess.PIPE)
    if run.returncode:
        sys.exit(f"{program} {words}: status {run.returncode}")
    return int(re.search(rb"Collected\s*:\s*(\d+)", run.stderr).group(1))


def number(text):
    """The first number of a text."""
    return float(re.search(r"\d[\d,.]*", text).group().replace(",", ""))


def table(rows):
    """Prints rows of what was measured, the value, what is wanted, and why where it isn't reached; then what isn't reached."""
    missed = []
    print("| What | Measured | Wanted |\n|---|---|---|")
    for what, value, wanted, *why in rows:
        print(f"| {what} | {value} | {wanted} |", flush=True)
        if wanted and number(value) > number(wanted):
            missed.append(" ".join([f"- {what}: {value}, wanted {wanted}.", *why]))
    print("\nNot reached:\n" + "\n".join(missed) if missed else "\nAll that is wanted is reached.")
