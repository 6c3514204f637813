#!/usr/bin/env bash
# run.sh GRSIM FOLDER..: plays each NAME.gr of the folders, and compares the answer with NAME.out and the status with NAME.status (0 where there is none).
# NAME.args has the words of the command in place of `play`.
set -u
grsim="$1"
shift
passed=0
failed=0
answer="$(mktemp)"
for folder in "$@"; do
    for script in "$folder"/*.gr; do
        name="${script%.gr}"
        words=play
        status=0
        [ -f "$name.args" ] && words="$(cat "$name.args")"
        [ -f "$name.status" ] && status="$(cat "$name.status")"
        # The words of a command stand apart.
        # shellcheck disable=SC2086
        "$grsim" $words <"$script" >"$answer"
        got=$?
        if [ "$got" = "$status" ] && cmp -s "$answer" "$name.out"; then
            passed=$((passed + 1))
        else
            failed=$((failed + 1))
            echo "differs: $name (status $got)"
            diff "$name.out" "$answer" | head -5
        fi
    done
done
rm -f "$answer"
echo "scripts: $passed passed, $failed failed"
[ "$failed" = 0 ] && [ "$passed" != 0 ]
