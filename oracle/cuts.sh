#!/bin/sh
# The stored script of `drive`, cut at a hundred places: `drive` and the model of document 01 answer each piece alike, and a cut record with
# `bad script`, of which `tools/run` makes the status 1, as it does where the answers cannot be written.
set -eu
cd "$(dirname "$0")/.."
to=target/oracle/cuts
mkdir -p "$to"
length=$(wc -c <crates/drive/stdin)
cut=1
count=0
bad=0
while [ "$cut" -lt "$length" ]; do
    head -c "$cut" crates/drive/stdin >"$to/script"
    status=0
    tools/run drive <"$to/script" >"$to/answers" 2>"$to/said" || status=$?
    target/oracle/oracle model answer <"$to/script" | diff - "$to/answers"
    said=0
    [ "$(tail -n 1 "$to/answers")" != 'bad script' ] || said=1
    [ "$status" -eq "$said" ] || {
        echo "cut at $cut: status $status, and the last line is $(tail -n 1 "$to/answers")"
        exit 1
    }
    bad=$((bad + said))
    count=$((count + 1))
    cut=$((cut + length / 100))
done
[ "$bad" -gt 0 ]
if tools/run drive <crates/drive/stdin >/dev/full 2>"$to/said"; then
    echo 'answers that cannot be written: status 0'
    exit 1
fi
[ "$(wc -l <"$to/said")" -eq 1 ]
rm -r "$to"
echo "cut scripts: $count answered alike, $bad of them bad, with status 1"
