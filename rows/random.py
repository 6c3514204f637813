#!/usr/bin/env python3
"""random.py GRSIM: plays scripts of random lines of every form, and random bytes, the same ones each time.

A script of good lines ends with status 0, each of its lines is answered, and no two members differ in what stands at a place; random bytes end with
status 0, or with 5 and the bad line named as the last line of the text."""
import random
import subprocess
import sys

GROUP = "aaaaaaaa-aaaa-aaaa-aaaa-aaaaaaaaaaaa"
LEVELS = ["EVENTUAL", "BEFORE_ON_PRIMARY_FAILOVER", "BEFORE", "AFTER", "BEFORE_AND_AFTER"]
SCRIPTS = 100
STEPS = 150
INPUTS = 150


def play(grsim, script):
    run = subprocess.run([grsim, "play"], input=script, capture_output=True, check=False)
    return run.returncode, run.stdout.decode("ascii", "replace").splitlines()


def line(draw):
    """A line behind `found`."""
    server = draw.choice([1, 1, 2, 2, 3, 3, 4])
    inc = f"{draw.randint(1, 4)}.{draw.choice([1, 1, 1, 2])}"
    session = draw.randint(1, 3)
    row = f"t {draw.choice('abc')}"
    sent = draw.randint(1, 80)
    return draw.choice([
        f"begin {server} {session} {draw.choice(LEVELS)} {draw.randint(1, 5)}",
        f"get {server} {session} {row}",
        f"{draw.choice(['insert', 'update'])} {server} {session} {row} {draw.randint(1, 9)}",
        f"delete {server} {session} {row}",
        f"{draw.choice(['commit', 'rollback'])} {server} {session}",
        f"once {server} {draw.choice(['insert', 'update'])} {row} {draw.randint(1, 9)}",
        f"once {server} delete {row}",
        f"once {server} insert {row} {draw.randint(1, 9)}",
        "settle",
        "settle",
        f"{draw.choice(['deliver', 'deliver', 'lose'])} {sent}",
        draw.choice(["settle", "settle 1 2", "settle 1 3", "settle 1 2 3 4", "drain"]),
        draw.choice([f"work {server}", f"work {server} {draw.randint(1, 9)}"]),
        draw.choice([f"tick {server}", f"tick {server} {draw.randint(1, 7)}"]),
        draw.choice([f"campaign {server}", f"tell {server}", f"multi {server}", f"single {server}", f"single {server} {inc}", f"primary {server} {inc}"]),
        draw.choice([f"leave {server}", f"start {server} {draw.randint(1, 4)}", f"stop {server}", f"offline {server} {row} 9"]) if draw.random() < 0.3 else f"work {server}",
        draw.choice([f"donor {server} {inc}", f"nodonor {server}", f"start 4 1", "settle"]),
        f"show {draw.choice(['members', 'slots', 'gtids', 'rows', 'queue', 'certifier', 'kept'])} {server}",
        draw.choice([f"show config {server} {draw.randint(1, 30)}", "show wire", f"server {draw.randint(4, 6)} 00000000-0000-0000-0000-00000000000{draw.randint(4, 6)} 8.0.36 50"]),
    ])


def script(draw):
    """A script of good lines."""
    founders = draw.choice(["1", "1 2", "1 2 3", "1 2 3"])
    first = [f"block {draw.randint(1, 5)}"] if draw.random() < 0.3 else []
    found = f"found {GROUP} {draw.choice(['multi', 'single'])} 10 {draw.randint(0, 6)} {draw.choice([0, 3, 9])} {founders}"
    return [*first, found, *(line(draw) for _ in range(STEPS))]


def check(grsim, lines):
    status, texts = play(grsim, "".join(f"{each}\n" for each in lines).encode())
    answered = {text.split(" ")[0] for text in texts}
    places = {}
    for text in texts:
        words = text.split(" ")
        if words[2:3] == ["took"] and places.setdefault(words[3], words[4:]) != words[4:]:
            sys.exit("\n".join([*lines, f"place {words[3]} has two entries"]))
    if status != 0 or answered != {str(number) for number in range(1, len(lines) + 1)}:
        sys.exit("\n".join([*lines, f"status {status}"]))
    return len(places)


def main():
    grsim = sys.argv[1]
    draw = random.Random(1)
    places = sum(check(grsim, script(draw)) for _ in range(SCRIPTS))
    for _ in range(INPUTS):
        some = bytes(draw.choice(b"abk0123456789. \r\n#xyz\x00\xff") for _ in range(draw.randint(1, 400)))
        status, texts = play(grsim, some)
        if status not in (0, 5) or (status == 5) != (texts[-1:] != [] and texts[-1].endswith(" bad line")):
            sys.exit(f"status {status} of {some!r}")
    print(f"random: {SCRIPTS} scripts with {places} places, {INPUTS} inputs of bytes")
    if places == 0:
        sys.exit("nothing was taken")


main()
