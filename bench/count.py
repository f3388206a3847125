"""Counts the instructions of one run of each case of bench/run_events.rs, by engine and yardstick, under callgrind.

Then, for some of the cases, those of the engine where it is lent no byte more than the statement has. Called as
`count.py PROGRAM FOLDER`: the program that bench/run built, and a folder for what callgrind writes. Only what runs
inside the outermost function of a side is counted. The engine's memset is told apart: callgrind counts a long one byte
by byte, so that its share of the instructions is not its share of the time.
"""

import subprocess
import sys


def outermost(case, side):
    """The outermost function of a side. The engine has one for runs that are lent a scale."""
    if side == "yardstick":
        return "run_events::yardstick::run"
    return "cession_run_scaled" if case == "scaled" else "cession_run"


def by_function(path):
    """The instructions of each function in a file of callgrind's, without those of the functions that it calls."""
    names, counts, function, is_call = {}, {}, "", False
    for line in open(path, encoding="utf-8"):
        if line.startswith(("fn=", "cfn=")):
            kind, _, text = line.strip().partition("=")
            # A name stands beside its number where the number comes first, here or as that of a function called.
            number, _, name = text.partition(" ")
            names.setdefault(number, name)
            function = names[number] if kind == "fn" else function
        elif line.startswith("calls="):
            is_call = True
        elif line[0] in "0123456789+-*":
            if not is_call:
                counts[function] = counts.get(function, 0) + int(line.split()[1])
            is_call = False
    return counts


def count(program, folder, case, side):
    """All instructions of a run, and those of them in memset."""
    path = f"{folder}/callgrind.{case}.{side}"
    function = outermost(case, side)
    options = ["--tool=callgrind", f"--toggle-collect={function}", f"--callgrind-out-file={path}"]
    subprocess.run(["valgrind", "-q", *options, program, "count", case, side], check=True)
    counts = by_function(path)
    total = sum(counts.values())
    if total == 0:
        sys.exit(f"count.py: nothing counted in {path}: is {function} there?")
    return total, sum(number for name, number in counts.items() if "memset" in name)


def listed(program, kind):
    """The lines that the program prints of its cases of a kind."""
    return subprocess.run([program, kind], check=True, capture_output=True, text=True).stdout.splitlines()


def print_table(head, cases, line):
    """A line for each case, under the names of its columns; all columns but the first are numbers."""
    print("| " + " | ".join(head) + " |")
    print("|---|" + "---:|" * (len(head) - 1))
    for case in cases:
        print("| " + " | ".join([case, *(str(value) for value in line(case))]) + " |", flush=True)


def ratios(ours, theirs):
    """Of all instructions of two runs, and of those outside memset: each run is all of them and those in it."""
    return f"{ours[0] / theirs[0]:.2f}", f"{(ours[0] - ours[1]) / (theirs[0] - theirs[1]):.2f}"


def print_sides(program, folder):
    """The engine against the yardstick, of which no memset is told apart."""
    def line(case):
        ours = count(program, folder, case, "engine")
        theirs, _ = count(program, folder, case, "yardstick")
        return *ours, theirs, *ratios(ours, (theirs, 0))

    head = ["case", "engine, instructions", "of them memset", "yardstick", "ratio", "ratio without memset"]
    print_table(head, listed(program, "names"), line)


def print_exact(program, folder):
    """The engine lent two buffers."""
    def line(case):
        exact, wide = (count(program, folder, case, side) for side in ("exact", "engine"))
        return exact[0], wide[0], *ratios(exact, wide)

    print("the engine, lent exactly the statement's bytes and lent many more:")
    head = ["case", "exact, instructions", "wide", "ratio", "ratio without memset"]
    print_table(head, listed(program, "exact"), line)


def main():
    """Both tables."""
    program, folder = sys.argv[1:]
    print_sides(program, folder)
    print_exact(program, folder)


if __name__ == "__main__":
    main()
