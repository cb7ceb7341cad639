#!/bin/sh
# Builds target/oracle/oracle: the given Rust, unchanged, beside the stand-ins it leans on. Run from anywhere.
#
# Rust has no way to reach a module's private items from outside, and `include!` refuses a file that starts with inner
# attributes, as packet.rs does. So each given file is copied as it stands and one line is set behind it, which pulls the
# test's own items into the same module. Nothing of the given text is edited, and its checksums are compared first.
set -eu
cd "$(dirname "$0")/.."

given=docs/src/emissary-core/src/sam/protocol/streaming
out=target/oracle
sha256sum --quiet --check oracle/given.sha256
mkdir -p "$out"
for file in packet stream/active; do
    name=$(basename "$file")
    { cat "$given/$file.rs"; echo "include!(\"../../oracle/src/inside/$name.rs\");"; } > "$out/$name.rs"
done

# Under `make` rustc would look for make's own job server, which a recipe does not hand down.
unset MAKEFLAGS MFLAGS

# Overflow checks stay on, so that a sum of the Rust that leaves its width stops the run and is not taken for an answer.
${RUSTC:-rustc} --edition 2021 --crate-name oracle -C opt-level=3 -C overflow-checks=on -o "$out/oracle" oracle/src/main.rs
