#!/usr/bin/env python3
"""Two threads of Python share a dictionary and a counter, and record what they do.

The output is the text of a record, which gosync judges:  python3 examples/recorded.py | ./gosync check -
"""
import threading

SCRIPTS = [["store seen ann 1", "add hits 1", "load seen bob"], ["store seen bob 2", "add hits 1", "load seen ann"]]
WORKERS = len(SCRIPTS)

seen, hits = {}, 0
order = threading.Lock()  # held round each call with its line, so the calls stand in one order
changes = 0  # how many calls so far changed something: the length of the history
lists = [[] for _ in SCRIPTS]  # each worker's lines
replies = [[] for _ in SCRIPTS]


def call(words):
    """Makes a call, and gives its reply and whether it is one that changes something."""
    global hits
    if words[0] == "store":
        seen[words[2]] = int(words[3])
        return "ok", True
    if words[0] == "add":
        hits += int(words[2])
        return str(hits), True
    return (f"{seen[words[2]]} true" if words[2] in seen else "- false"), False


def work(me):
    global changes
    front = [0] * WORKERS  # how many calls of each worker this one knows of: its own, for nothing here hands on another's
    for index, text in enumerate(SCRIPTS[me]):
        with order:
            place = changes
            reply, is_entry = call(text.split())
            changes += is_entry
        lists[me].append(f"call {me} {index} {place} {','.join(map(str, front))} {reply}")
        replies[me].append(f"{me}.{index} {text} -> {reply}")
        front[me] += 1


threads = [threading.Thread(target=work, args=(me,)) for me in range(WORKERS)]
for thread in threads:
    thread.start()
for thread in threads:
    thread.join()

print(f"workers {WORKERS}", "map seen", "int64 hits", sep="\n")
for me, script in enumerate(SCRIPTS):
    print(f"worker {me}", *script, sep="\n")
print("record", *[line for lines in lists for line in lines], "outcome done", sep="\n")
print(*[line for lines in replies for line in lines], f"end hits {hits}", sep="\n")
for key in sorted(seen):
    print(f"end seen {key} {seen[key]}")
