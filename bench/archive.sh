# What each script begins with that tries a release, where `root` is the top of the repository: `work`, an empty folder that is
# removed at the end, and `archive`, the path of the release. That is the script's first word, or else one of this commit.
archive=${1-}
work=$(mktemp -d)
trap 'rm -rf -- "$work"' EXIT
trap 'exit 1' HUP INT TERM
if [ -z "$archive" ]; then
    "$root/bin/release" "$work"
    archive=$(echo "$work"/*.tar.gz)
fi
