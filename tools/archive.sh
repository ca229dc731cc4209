#!/bin/sh
# Builds an archive for C, target/staticlib/libNAME.a: of the crate NAME_c, or of the crate NAME if there is no such one.
# Building proves the crate and what it is made of.
#
#     tools/archive.sh NAME
set -e
name=$1
top=$(dirname "$(dirname "$(readlink -f "$0")")")
crate=${name}_c
[ -d "$top/crates/$crate" ] || crate=$name
(cd "$top/crates/$crate" && rt lib) >&2
mkdir -p "$top/target/staticlib"
cp "$top/crates/$crate/out/lib$crate.a" "$top/target/staticlib/lib$name.a"
