#!/bin/sh
# Tries the edits that the gate does not: bench/edits/CRATE/*.edit, wrong bodies of that crate which its check must refuse. It works on
# a copy of the crates, so nothing here changes, and begins with what checks of this checkout have kept. Where a crate has never been
# checked, its proof comes first; then an edit takes from 20 seconds to some minutes. Answers 0 where each was refused.
# usage: bench/edits.sh [--look] [CRATE..]: by default all; --look only tells whether each edit can still be applied.
set -eu

root=$(CDPATH='' cd -- "$(dirname -- "$0")/.." && pwd -P)
look=
if [ "${1-}" = --look ]; then
    look=1
    shift
fi
if [ $# -eq 0 ]; then
    for path in "$root"/bench/edits/*/; do
        path=${path%/}
        set -- "$@" "${path##*/}"
    done
fi
for crate; do
    [ -d "$root/bench/edits/$crate" ] || { echo "edits: there are none of $crate" >&2; exit 2; }
done

if [ -n "$look" ]; then
    ROOT=$root exec python3 - "$@" <<'PYTHON'
import os
import sys

root, stale, count = os.environ["ROOT"], 0, 0
for crate in sys.argv[1:]:
    folder = f"{root}/bench/edits/{crate}"
    for name in sorted(os.listdir(folder)):
        texts, path, count = {}, "", count + 1
        for line in open(f"{folder}/{name}", encoding="utf-8").read().split("\n"):
            if line.startswith("file: "):
                path = f"{root}/crates/{crate}/{line[6:].strip()}"
                if path not in texts:
                    texts[path] = open(path, encoding="utf-8").read() if os.path.isfile(path) else ""
            elif line.startswith("old: "):
                old = line[5:]
                if texts[path].count(old) != 1:
                    stale += 1
                    print(f"edits: {crate}/{name}: its old text stands {texts[path].count(old)} times, not once")
            elif line.startswith("new:"):
                texts[path] = texts[path].replace(old, line[4:].removeprefix(" "))
print(f"edits: {count} edits, {stale} that cannot be applied")
sys.exit(stale > 0)
PYTHON
fi

work=$(mktemp -d)
trap 'rm -rf "$work"' EXIT
trap 'exit 2' HUP INT TERM
mkdir "$work/.git"
(cd "$root" && tar cf - --exclude=crates/*/out --exclude=crates/*/must-fail crates crates.txt HANDLES) | tar xf - -C "$work"
for crate; do
    mkdir "$work/crates/$crate/must-fail"
    cp "$root/bench/edits/$crate"/*.edit "$work/crates/$crate/must-fail"
done
cd "$work"
rt must-fail "$@"
