# What each script of this folder begins with, where `root` is the top of the repository: `program`, which is built where
# it is not yet, and `work`, an empty folder that is removed at the end.
program=$root/crates/testr_prog/out/testr_prog
if [ ! -x "$program" ]; then
    # The launcher builds it. Without words it then does nothing.
    "$root/bin/testr" </dev/null >/dev/null || [ -x "$program" ]
fi

work=$(mktemp -d)
trap 'rm -rf -- "$work"' EXIT
trap 'exit 1' HUP INT TERM
