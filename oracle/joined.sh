#!/bin/sh
# oracle/joined.sh SEED MOVES: the model's sender and receiver, joined by a channel that loses, repeats and reorders. It prints one line, and all there
# is to say where a statement failed or something was never met.
set -eu
cd "$(dirname "$0")/.."
if ! target/oracle/oracle joined "$1" "$2" >target/oracle/joined 2>&1; then
    cat target/oracle/joined
    exit 1
fi
head -n 1 target/oracle/joined
