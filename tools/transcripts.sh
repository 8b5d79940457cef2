#!/usr/bin/env bash
# Plays the cases of crates/transcripts/data, or of those files of it that are named, and lists those that differ.
# What the program must print, crates/transcripts/stdout, is written anew, from the files alone.
set -eu
top=$(cd "$(dirname "${BASH_SOURCE[0]}")/.." && pwd)
crate="$top/crates/transcripts"
files=(language.txt refusals.txt meaning.txt images.txt words.txt)
(cd "$crate/data" && cat "${files[@]}") >"$crate/stdout"
[ $# -gt 0 ] || set -- "${files[@]}"
given=()
for path in "$crate"/data/*; do
  given+=(--data "$(basename "$path")=$path")
done
cd "$crate"
rt try "${given[@]}" -- "$@"
