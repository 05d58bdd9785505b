#!/usr/bin/env python3
"""Measures whole runs of a program, started anew each time: workloads of 20,000 calls by 1, 2, 4 and 8 workers.

    runs.py [TURNS] NAME=COMMAND ..

For each kind of object there is a text of 20,000 calls, split among the workers. A COMMAND is words, of which {} stands for the
text's file, as in

    runs.py 20 'step=crates/gosync/out/gosync step {}' 'run=crates/gosync/out/gosync run {}'

A COMMAND without {} is measured as it stands, in a row of its own. Each turn runs all commands on all texts once, with their
output dropped. Prints a table in Markdown of the least time of each, in milliseconds: from before the process is made until it
has ended. The machine should do nothing else meanwhile.
"""
import os
import sys
import tempfile
import time

CALLS = 20_000
WORKERS = (1, 2, 4, 8)


def same(*calls):
    """Each worker makes these calls again and again."""
    return lambda worker, group: calls


def own_mutexes(worker, group):
    return f"lock m{worker}", f"unlock m{worker}"


def changes(worker, group):
    key = f"k{group % 4096}"
    return f"store t {key} {group}", f"load t {key}", f"load t {key}", f"lad t {key}"


def loads(worker, group):
    # The nine keys that were stored last, by whichever worker had the groups before.
    return (f"store t k{group} {group}", *(f"load t k{max(group - back, 0)}" for back in range(1, 10)))


def mix(worker, group):
    return ("lock m", "add a 1", "unlock m", f"store t k{group} {group}", f"load t k{group}", f"put p {group}", "get p",
            f"load t k{max(group - 1, 0)}")


# What stands in a table's first column, the objects, and the calls of a group.
WORKLOADS = (
    ("`lock` and `unlock` of each worker's own mutex", [f"mutex m{worker}" for worker in range(8)], own_mutexes),
    ("the same of one mutex", ["mutex m"], same("lock m", "unlock m")),
    ("`rlock` and `runlock` of one rwmutex", ["rwmutex w"], same("rlock w", "runlock w")),
    ("`store`, two `load`s and `lad` of a key, of 4,096 keys of one map", ["map t"], changes),
    ("a `store` and nine `load`s, of 2,000 keys of one map", ["map t"], loads),
    ("`add` to one int64", ["int64 a"], same("add a 1")),
    ("`put` and `get` of one pool", ["pool p"], same("put p 1", "get p")),
    ("`add` and `done` of one wait group", ["waitgroup g 0"], same("add g 1", "done g")),
    ("`do` of one once", ["int64 a", "once o a 1"], same("do o")),
    ("`signal` and `broadcast` of one cond", ["mutex m", "cond c m"], same("signal c", "broadcast c")),
    ("a mix of locks, adds, stores, loads, puts and gets", ["mutex m", "int64 a", "map t", "pool p"], mix),
)


def text(workers, objects, calls):
    """The groups of calls are numbered, and each worker has the next of them."""
    lines = [f"workers {workers}", *objects]
    size = len(calls(0, 0))
    groups = CALLS // size
    for worker in range(workers):
        lines.append(f"worker {worker}")
        for group in range(groups * worker // workers, groups * (worker + 1) // workers):
            lines += calls(worker, group)
    return "\n".join(lines) + "\n"


def milliseconds(words, dropped, variables=os.environ):
    begin = time.perf_counter()
    process = os.posix_spawn(words[0], words, variables, file_actions=[(os.POSIX_SPAWN_DUP2, dropped, 1)])
    status = os.waitstatus_to_exitcode(os.wait4(process, 0)[1])
    ended = time.perf_counter()
    if status:
        sys.exit(f"{' '.join(words)}: status {status}")
    return 1000 * (ended - begin)


def main():
    words = sys.argv[1:]
    turns = int(words.pop(0)) if words and "=" not in words[0] else 20
    commands = dict(word.split("=", 1) for word in words)
    if not commands:
        sys.exit(__doc__)
    of_texts = [name for name, command in commands.items() if "{}" in command.split()]
    alone = [name for name in commands if name not in of_texts]
    dropped = os.open(os.devnull, os.O_WRONLY)
    with tempfile.TemporaryDirectory() as folder:
        files, least = {}, {}
        for row, (_, objects, calls) in enumerate(WORKLOADS):
            for workers in WORKERS:
                files[row, workers] = f"{folder}/{row}-{workers}.txt"
                with open(files[row, workers], "w") as file:
                    file.write(text(workers, objects, calls))
        for _ in range(turns):
            for place, file in files.items():
                for name in of_texts:
                    took = milliseconds([file if it == "{}" else it for it in commands[name].split()], dropped)
                    least[place, name] = min(took, least.get((place, name), took))
            for name in alone:
                took = milliseconds(commands[name].split(), dropped)
                least[name] = min(took, least.get(name, took))
    if of_texts:
        print(f"Milliseconds, best of {turns}: {', '.join(of_texts)}.\n")
        print("| Calls | " + " | ".join(map(str, WORKERS)) + " workers |")
        print("|---|" + "---|" * len(WORKERS))
    for row, (title, _, _) in enumerate(WORKLOADS if of_texts else ()):
        cells = (", ".join(f"{least[(row, workers), name]:.1f}" for name in of_texts) for workers in WORKERS)
        print(f"| {title} | " + " | ".join(cells) + " |")
    for name in alone:
        print(f"\n{name} (`{commands[name]}`): {least[name]:.1f}")


if __name__ == "__main__":
    main()
