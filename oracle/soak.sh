#!/bin/sh
# oracle/soak.sh SEED CALLS: rounds of `compare.sh drive sender` and `compare.sh drive model`, each with the next seed, until so many calls were
# compared. It prints a line for each, and all that a failing one has to say.
set -eu
cd "$(dirname "$0")/.."
seed=$1
compared=0
while [ "$compared" -lt "$2" ]; do
    seed=$((seed + 1))
    for topic in 'sender' 'model'; do
        count=$([ "$topic" = sender ] && echo 5000 || echo 50000)
        if ! oracle/compare.sh drive "$topic" "$seed" "$count" >target/oracle/soak; then
            cat target/oracle/soak
            exit 1
        fi
        head -n 1 target/oracle/soak
        compared=$((compared + $(sed -n '1s/.*: \([0-9]*\) compared.*/\1/p' target/oracle/soak)))
    done
done
echo "soak: $compared calls compared, seeds $(($1 + 1)) to $seed, no difference that is not listed"
