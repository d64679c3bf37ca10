# Sourced by the scripts here: our program in $ours, a folder that is removed in the end in $work, and `timed` in it.
set -eu
here=$(cd "$(dirname "$0")" && pwd)
folder=$(cd "$here/../crates/rflx" && pwd)
ours=$folder/out/rflx
work=$(mktemp -d)
trap 'rm -rf "$work"' EXIT

# building our program proves it and all that it stands on
[ -x "$ours" ] || (cd "$folder" && rt run > "$work/build.log" 2>&1) || true
[ -x "$ours" ] || { tail -n 20 "$work/build.log" >&2; exit 1; }
gcc -O2 -o "$work/timed" "$here/timed.c"
