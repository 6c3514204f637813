#!/usr/bin/env bash
# largest-body.sh GRSIM: a transaction of 279 rows of 60,000 bytes is sent, in 256 parts; one of 280 is too large.
set -eu
value="$(head -c 60000 /dev/zero | tr '\0' x)"
for case in "279 sent 1.1#256" "280 too large 16804494"; do
    rows="${case%% *}"
    wanted="$((rows + 3)) 1.1 answer 7 ${case#* }"
    got="$({
        echo "found aaaaaaaa-aaaa-aaaa-aaaa-aaaaaaaaaaaa multi 10 5 0 1 2 3"
        echo "begin 1 7 EVENTUAL 9"
        for row in $(seq 1 "$rows"); do
            printf 'insert 1 7 t k%03d %s\n' "$row" "$value"
        done
        echo "commit 1 7"
    } | "$1" play | tail -n 1)"
    if [ "$got" != "$wanted" ]; then
        echo "largest body: '$got' in place of '$wanted'"
        exit 1
    fi
done
echo "largest body: 2 passed"
