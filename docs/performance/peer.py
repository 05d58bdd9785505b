#!/usr/bin/env python3
"""Measures whole runs of gosync beside those of peer.go, which reads the same texts, makes the same calls on Go's own types and writes
the same lines, one write each.

    peer.py [--whole] [--turns N] [--large] [--dry] [--instructions] [--command run|step] [--gosync PROGRAM]

The texts have 20,000 calls of one kind, or a mix, by 1, 2, 4 and 8 workers; the last one has no call. Each turn starts both programs on
each text anew, with their output dropped. Prints a table in Markdown with a row for each kind, whose cells have a number for each of 1, 2,
4 and 8 workers: the least time of each program, in milliseconds, from before the process is made until it has ended, and what gosync's is
of Go's. Before that it looks whether both write the same calls of each text.

--whole prints all that there is, as docs/PERFORMANCE.md has it: --large, --dry and --instructions, with 12 turns. That takes one to two
minutes on a machine that does nothing else.

--large adds what gosync takes of Go's time where its memory lies in large pages, as the wrapper ./gosync lets it (GLIBC_TUNABLES).

--dry adds the same without the writes: each program makes its lines, and a write of one returns at once, without a call of the system.
gosync calls the C library's `write`, before which a shared library of a few lines is put (LD_PRELOAD); of Go's program that is a word. The
row without a call tells what loading the library takes.

--instructions prints a table of what valgrind's callgrind counts of `gosync step`, in the texts of one worker: instructions a byte and a
call for reading the text, and a call for running it and making the report. Reading is what gosync takes for the text with a last line
that it refuses.

It needs Go 1.23 or later, a C compiler for --dry, and valgrind for --instructions. Only from Go 1.24 on a sync.Map is a hash trie.
GO=PROGRAM names another `go`. The program is that of `rt run`. But for --large both programs get GLIBC_TUNABLES as it stands here. The
machine should do nothing else meanwhile.
"""
import argparse
import os
import re
import statistics
import subprocess
import sys
import tempfile

import runs

HERE = os.path.dirname(os.path.abspath(__file__))
BUILT = f"{HERE}/../../crates/gosync/out/gosync"
KEYS = 4096


def key_stores(worker, group):
    return (f"store t k{group % KEYS} {group}",)


def key_loads(worker, group):
    return key_stores(worker, group) if group < KEYS else (f"load t k{group % KEYS}",)


def key_churn(worker, group):
    return f"store t k{group % KEYS} {group}", f"delete t k{group % KEYS}"


WORKLOADS = (
    *runs.WORKLOADS,
    ("`call` of a oncefunc, `value` of a oncevalue", ["oncefunc f 0", "oncevalue v 7"], runs.same("call f", "value v")),
    ("4,096 `store`s of one map, then `load`s of these keys", ["map t"], key_loads),
    ("`store`s of 4,096 keys of one map", ["map t"], key_stores),
    ("`store` and `delete` of 4,096 keys of one map", ["map t"], key_churn),
)

# The commands beside gosync and Go.
LARGE, DRY, GO_DRY, DRY_LARGE = "gosync, large pages", "gosync, no writes", "Go, no writes", "gosync, no writes, large pages"

LARGE_PAGES = {"GLIBC_TUNABLES": "glibc.malloc.hugetlb=1"}

# A write to the output that isn't made. All else that is written goes on to the system.
NO_WRITE = """
#include <sys/syscall.h>
#include <unistd.h>

ssize_t write(int to, const void *from, size_t length) {
    return to == 1 ? (ssize_t)length : syscall(SYS_write, to, from, length);
}

ssize_t __write(int to, const void *from, size_t length) __attribute__((alias("write")));
"""


def made(words, **how):
    subprocess.run(words, check=True, stdout=sys.stderr, **how)


def calls_of(report):
    """The calls of a report, which are there whatever they answer, and no ends of maps, which may differ."""
    return [line.partition(" -> ")[0] for line in report.splitlines() if not line.startswith("end ")]


def compare(texts, gosync, peer):
    for file in texts.values():
        wrote = [subprocess.run([*words, file], check=True, capture_output=True, text=True).stdout for words in (gosync, peer)]
        if calls_of(wrote[0]) != calls_of(wrote[1]):
            sys.exit(f"the programs don't write the same calls of {file}")


def least_times(turns, texts, commands):
    """The least time of each command, a list of words with its environment, on each text."""
    dropped = os.open(os.devnull, os.O_WRONLY)
    least = {}
    for _ in range(turns):
        for place, file in texts.items():
            for name, (words, variables) in commands.items():
                took = runs.milliseconds([*words, file], dropped, {**os.environ, **variables})
                least[place, name] = min(took, least.get((place, name), took))
    return least


def ratios_of(least, texts, one, other):
    """What the least time of one command is of that of another one, on each text."""
    return {place: least[place, one] / least[place, other] for place in texts}


def print_times(turns, texts, commands):
    least = least_times(turns, texts, commands)

    def times(name):
        return {place: least[place, name] for place in texts}, 1

    def ratios(one, other):
        return ratios_of(least, texts, one, other), 2

    # What stands above a column, and its number for each text, with so many digits.
    columns = {"gosync, ms": times("gosync"), "Go, ms": times("Go"), "of Go's": ratios("gosync", "Go")}
    if LARGE in commands:
        columns["of Go's, large pages"] = ratios(LARGE, "Go")
    if DRY in commands:
        columns |= {"gosync, no writes, ms": times(DRY), "Go, no writes, ms": times(GO_DRY), "of Go's, no writes": ratios(DRY, GO_DRY)}
    if DRY_LARGE in commands:
        columns["of Go's, no writes, large pages"] = ratios(DRY_LARGE, GO_DRY)
    print(f"Milliseconds, best of {turns}, with {', '.join(map(str, runs.WORKERS))} workers.\n")
    print("| Text | " + " | ".join(columns) + " |")
    print("|---|" + "---|" * len(columns))
    for title in dict.fromkeys(title for title, _ in texts):
        places = [place for place in texts if place[0] == title]
        cells = (", ".join(f"{found[place]:.{digits}f}" for place in places) for found, digits in columns.values())
        print(f"| {title} | " + " | ".join(cells) + " |")
    for name, (found, digits) in columns.items():
        if name.startswith("of"):
            of_calls = [ratio for place, ratio in found.items() if place[1]]
            print(f"\n{name}: {min(of_calls):.2f} to {max(of_calls):.2f}, the middle one {statistics.median(of_calls):.2f}.")


def instructions(words, folder):
    """What callgrind counts of a program, whatever status it ends with."""
    counted = f"{folder}/counted"
    whole = ["valgrind", "--tool=callgrind", f"--callgrind-out-file={counted}", *words]
    ran = subprocess.run(whole, stdout=subprocess.DEVNULL, stderr=subprocess.PIPE, text=True)
    found = re.search(r"Collected : (\d+)", ran.stderr)
    if not found:
        sys.exit(ran.stderr)
    return int(found[1])


def refused(file, folder):
    """The same text with a last line that is refused."""
    other = f"{folder}/refused.txt"
    with open(file) as text, open(other, "w") as out:
        out.write(text.read() + "refused\n")
    return other


def print_instructions(texts, gosync, folder):
    step = [gosync, "step"]
    empty = texts["no call", 0]
    whole_none, read_none = instructions([*step, empty], folder), instructions([*step, refused(empty, folder)], folder)
    print("\n| Text | Bytes a call | Reading, a byte | Reading, a call | Running and the report, a call |")
    print("|---|---|---|---|---|")
    for (title, workers), file in texts.items():
        if workers != 1:
            continue
        size = os.path.getsize(file)
        whole, read = instructions([*step, file], folder), instructions([*step, refused(file, folder)], folder)
        reading, rest = read - read_none, (whole - whole_none) - (read - read_none)
        print(f"| {title} | {size / runs.CALLS:.1f} | {reading / size:.0f} | {reading / runs.CALLS:,.0f} | {rest / runs.CALLS:,.0f} |")


def main():
    parser = argparse.ArgumentParser(description=__doc__, formatter_class=argparse.RawDescriptionHelpFormatter)
    parser.add_argument("--whole", action="store_true", help="all that follows, and 12 turns")
    parser.add_argument("--turns", type=int, help="20, where nothing is said")
    parser.add_argument("--large", action="store_true", help="also with large pages")
    parser.add_argument("--dry", action="store_true", help="also without the writes")
    parser.add_argument("--instructions", action="store_true", help="also what callgrind counts")
    parser.add_argument("--command", choices=("run", "step"), default="run")
    parser.add_argument("--gosync", default=BUILT, metavar="PROGRAM")
    given = parser.parse_args()
    turns = given.turns or (12 if given.whole else 20)
    if given.whole:
        given.large = given.dry = given.instructions = True
    gosync = os.path.realpath(given.gosync)
    if not os.path.exists(gosync):
        sys.exit(f"{gosync} isn't there: build it by ./gosync")
    go = os.environ.get("GO", "go")
    with tempfile.TemporaryDirectory() as folder:
        peer, library = f"{folder}/peer", f"{folder}/no_write.so"
        made([go, "build", "-o", peer, "peer.go"], cwd=HERE, env={**os.environ, "GO111MODULE": "off", "GOCACHE": f"{folder}/cache"})
        texts = {}
        for title, objects, calls in WORKLOADS:
            for workers in runs.WORKERS:
                texts[title, workers] = runs.text(workers, objects, calls)
        texts["no call", 0] = "workers 1\n"
        for number, (place, text) in enumerate(texts.items()):
            texts[place] = f"{folder}/{number}.txt"
            with open(texts[place], "w") as file:
                file.write(text)
        commands = {"gosync": ([gosync, given.command], {}), "Go": ([peer], {})}
        compare(texts, *(words for words, _ in commands.values()))
        if given.large:
            commands[LARGE] = ([gosync, given.command], LARGE_PAGES)
        if given.dry:
            made([os.environ.get("CC", "cc"), "-O2", "-shared", "-fPIC", "-x", "c", "-o", library, "-"], input=NO_WRITE.encode())
            commands[DRY] = ([gosync, given.command], {"LD_PRELOAD": library})
            commands[GO_DRY] = ([peer, "-dry"], {})
        if given.large and given.dry:
            commands[DRY_LARGE] = ([gosync, given.command], {"LD_PRELOAD": library, **LARGE_PAGES})
        print_times(turns, texts, commands)
        if given.instructions:
            print_instructions(texts, gosync, folder)
        version = subprocess.run([go, "version"], capture_output=True, text=True).stdout.split()[2]
        print(f"\n{given.command}; {os.cpu_count()} processors; {version}.")


if __name__ == "__main__":
    main()
