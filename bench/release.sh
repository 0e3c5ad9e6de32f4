#!/bin/sh
# Tries a release in an empty root, which has the C library and a static `busybox` for a shell, and nothing else: it is unpacked
# and installed there, and then each installed name runs. Also looks which version of the C library the program asks for, and
# that docs/USING.md tells it. Wants root, and busybox-static.
# usage: bench/release.sh [ARCHIVE]: by default a release of this commit is made.
set -eu

root=$(CDPATH='' cd -- "$(dirname -- "$0")/.." && pwd -P)
[ "$(id -u)" -eq 0 ] || { echo 'release: skipped, since only root can enter another root'; exit 0; }
busybox=$(command -v busybox) && ! ldd "$busybox" >/dev/null 2>&1 || { echo 'release: skipped, since there is no static busybox'; exit 0; }

. "$root/bench/archive.sh"
(cd -- "$(dirname -- "$archive")" && sha256sum -c -- "$(basename -- "$archive").sha256")

there=$work/root
mkdir -p "$there/bin" "$there/tmp" "$there/dev"
cp "$busybox" "$there/bin/busybox"
for name in sh mkdir cp chmod mv rm dirname readlink; do
    ln -s busybox "$there/bin/$name"
done
mknod "$there/dev/null" c 1 3
tar -xf "$archive" -C "$there/tmp"
tree=$(echo "$there"/tmp/*)
program=$tree/lib/hombirzsa/testr_prog

# What the program is linked with, at the paths that it asks for.
ldd "$program" | sed -n 's/.*=> \(\/[^ ]*\).*/\1/p; s/^[[:space:]]*\(\/[^ ]*\) (.*/\1/p' | while read -r library; do
    mkdir -p "$there${library%/*}"
    cp -L "$library" "$there$library"
    echo "release: it needs $library"
done
asks=$(grep -ao 'GLIBC_2\.[0-9.]*' "$program" | sed 's/GLIBC_//' | sort -t. -k2,2n -u | tail -1)
echo "release: it needs the C library of GNU, version $asks or newer"
grep -qF "the C library of GNU, version $asks or newer" "$root/docs/USING.md" || { echo 'release: WRONG: docs/USING.md tells another version'; exit 1; }

cat >"$there/tmp/try" <<'TRY'
set -eu
cd /tmp/hombirzsa-*
examples=$PWD/examples
./install /usr
bin/testr --version
rm -rf bin lib install
export PATH=/usr/bin
testr --version
/bin/mkdir /tmp/home
cd /tmp/home
testr init
testr load <"$examples/one-passed.subunit"
testr load <"$examples/failed.subunit" || [ $? -eq 1 ]
testr failing || [ $? -eq 1 ]
subunit-ls <"$examples/three-passed.subunit"
subunit-filter --success <"$examples/one-passed.subunit" | subunit-stats
subunit-tags quick <"$examples/one-passed.subunit" | subunit2tap
{ echo 1..1; echo 'ok 1 - a'; } | tap2subunit | subunit-ls
TRY
chroot "$there" /bin/sh /tmp/try >"$work/said" 2>&1 || { cat "$work/said"; echo 'release: WRONG: it failed in the empty root'; exit 1; }
cat "$work/said"
for line in 'PASSED (id=0)' 'FAILED (id=1, failures=1)' 'failures=1' 'Passed tests:      1' 'ok 1 foo' 'test 1 - a'; do
    grep -qxF "$line" "$work/said" || { echo "release: WRONG: it did not print '$line'"; exit 1; }
done
echo 'release: it runs in an empty root'
