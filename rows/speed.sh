#!/usr/bin/env bash
# speed.sh GRSIM: time and memory of made scripts, by hand, with nothing else running. docs/SPEED.md has what was measured.
set -eu
for steps in 5000 10000 20000; do
    /usr/bin/time -f "$steps steps: %U s user, %S s system, %M KB" "$1" make "$steps" 1
done
