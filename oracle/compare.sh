#!/bin/sh
# oracle/compare.sh WHO TOPIC SEED COUNT: the same calls to WHO, which is `drive` or the `model` of document 01, and to the Rust as given (of `vectors`: to what its
# lines say), answers compared; those of `drive` are to be the model's too. It fails where an answer differs in a way that is on no list (docs/DIFFERENCES.md), and
# then leaves the script and WHO's answers in target/oracle/TOPIC/. Without COUNT it takes the number of cases that the gate takes.
set -eu
cd "$(dirname "$0")/.."
oracle=target/oracle/oracle
case $1 in
drive) answer='tools/run drive' ;;
model) answer="$oracle model answer" ;;
*) exit 2 ;;
esac
case $2 in
model) cases=50000 ;;
read) cases=100000 ;;
write) cases=120000 ;;
receive | ack | sender) cases=20000 ;;
serial) cases=2000 ;;
smooth) cases=1000066 ;;
timer) cases=1000261 ;;
slips | vectors) cases='' ;;
*) exit 2 ;;
esac
words=${cases:+$3 ${4:-$cases}}
to=target/oracle/$2
mkdir -p "$to"
# shellcheck disable=SC2086
$oracle "$2" gen $words >"$to/script"
$answer <"$to/script" >"$to/answers"
# shellcheck disable=SC2086
$oracle "$2" check $words <"$to/answers"
if [ "$1" = drive ] && [ "$2" != model ]; then
    $oracle model answer <"$to/script" | cmp - "$to/answers"
fi
rm -r "$to"
