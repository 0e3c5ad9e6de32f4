#!/bin/sh
# Puts the files of each crate, or of those named, in the layout of `rt fmt`, which the gate wants before it proves a crate, and
# names those that were not in it. It takes a minute at most, where the gate finds the same after an hour. Answers 1 where there was one.
# usage: bench/layout.sh [CRATE..]
root=$(CDPATH='' cd -- "$(dirname -- "$0")/.." && pwd -P) || exit 2
if [ $# -eq 0 ]; then
    for path in "$root"/crates/*/; do
        path=${path%/}
        set -- "$@" "${path##*/}"
    done
fi
status=0
for crate; do
    told=$(cd -- "$root/crates/$crate" && rt fmt) || exit 2
    [ -z "$told" ] && continue
    printf '%s\n' "$told" | sed "s|^rt: |$crate: |"
    status=1
done
exit "$status"
