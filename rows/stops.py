#!/usr/bin/env python3
"""stops.py GRSIM SCRIPT..: plays each script with a `stop N` behind each of its lines, for each server that runs there, then drains, and compares
the rows that each member shows with those of the set that it shows.

The rows of a set are the changes of its certified transactions, in the order of their places, and then what was written at the server while it was
down. The changes of a transaction are read from the session calls of the script and their answers."""
import collections
import json
import re
import subprocess
import sys

STATEMENTS = ("insert", "update", "delete")


def play(grsim, lines, *words):
    """What the script prints, line by line."""
    text = "".join(f"{line}\n" for line in lines)
    run = subprocess.run([grsim, "play", *words], input=text, capture_output=True, text=True, check=False)
    if run.returncode != 0:
        sys.exit(f"status {run.returncode} of\n{text}")
    return run.stdout.splitlines()


def running(grsim, lines):
    """The servers of which an incarnation runs behind these lines."""
    report = json.loads(play(grsim, lines, "--report")[-1])
    return [int(member["inc"].split(".")[0]) for member in report["members"]]


def in_set(gtid, text):
    """Whether the set has this GTID."""
    source, number = gtid.rsplit(":", 1)
    for part in text.split(","):
        name, *runs = part.split(":")
        for run in runs if name == source else ():
            first, _, last = run.partition("-")
            if int(first) <= int(number) <= int(last or first):
                return True
    return False


def statement(words):
    """Which session the line is a statement of, and the change that it asks for."""
    if words[0] == "once":
        return int(words[1]), None, words[2:]
    return int(words[1]), words[2], [words[0], *words[3:]]


def told(lines, texts):
    """The certified transactions, by place, with their GTIDs and changes; and what was written at each server while it was down."""
    changes, bodies, certified, written = collections.defaultdict(list), {}, {}, collections.defaultdict(list)
    for text in texts:
        number, *mark = text.split(" ")
        words = lines[int(number) - 1].split()
        if mark[0] in ("ok", "refused"):
            continue
        if mark[0] == "offline":
            written[int(words[1])].append((mark[1], ["insert", *words[2:]]))
        elif mark[1] == "answer":
            server, answer = int(mark[0].split(".")[0]), mark[3:]
            key = server, mark[2]
            if answer[0] == "begun":
                changes[key] = []
            elif answer[0] == "changed":
                changes[key].append(statement(words)[2])
            elif answer[0] == "sent":
                bodies[answer[1]] = changes[key]
        elif mark[1] == "took" and mark[4:6] == ["txn", "positive"]:
            certified[int(mark[2])] = mark[6], mark[3]
    return [(gtid, bodies[value]) for _, (gtid, value) in sorted(certified.items())], written


def rows_of(certified, offline, executed):
    """The rows of a set at a server."""
    rows = {}
    for gtid, changes in [*certified, *((gtid, [change]) for gtid, change in offline)]:
        for what, table, key, *value in changes if in_set(gtid, executed) else ():
            if what == "delete":
                rows.pop((table, key), None)
            else:
                rows[table, key] = value[0]
    return [f"row {table} {key} {value}" for (table, key), value in sorted(rows.items())]


def check(grsim, lines):
    """How many members were compared behind this script; ends where one has other rows than its set gives."""
    lines = [*lines, "drain"]
    servers = running(grsim, lines)
    looks = [f"show {what} {server}" for server in servers for what in ("gtids", "rows")]
    texts = play(grsim, lines + looks)
    certified, written = told(lines + looks, [text for text in texts if int(text.split(" ")[0]) <= len(lines)])
    for at, server in enumerate(servers):
        shown = [[text.split(" ", 2)[2] for text in texts if text.split(" ")[0] == str(len(lines) + 2 * at + look)] for look in (1, 2)]
        executed = shown[0][0].removeprefix("gtids ")
        wanted = rows_of(certified, written[server], executed)
        if shown[1] != [*wanted, f"rows {len(wanted)}"]:
            sys.exit("\n".join([*lines, f"server {server} has executed {executed} and shows", *shown[1], "in place of", *wanted]))
    return len(servers)


def main():
    grsim, *scripts = sys.argv[1:]
    plays = members = 0
    for name in scripts:
        with open(name, encoding="ascii") as file:
            lines = file.read().splitlines()
        for at in range(1, len(lines) + 1):
            for server in running(grsim, lines[:at]):
                plays += 1
                members += check(grsim, [*lines[:at], f"stop {server}", *lines[at:]])
    print(f"stops: {plays} scripts, the rows of {members} members")
    if members == 0:
        sys.exit("nothing was compared")


main()
