#!/bin/sh
# Builds the second program, its library and its selftest into a folder.
set -e
here=$(cd "$(dirname "$0")" && pwd)
out=${1:?usage: build.sh FOLDER}
mkdir -p "$out"
rustc -O --edition 2021 --crate-type rlib --crate-name second -o "$out/libsecond.rlib" "$here/lib.rs"
rustc -O --edition 2021 --extern second="$out/libsecond.rlib" -o "$out/second" "$here/main.rs"
rustc -O --edition 2021 --extern second="$out/libsecond.rlib" -o "$out/selftest" "$here/selftest.rs"
