#!/usr/bin/env bash
# Shows that a buffer cannot be borrowed again while a draft of it lives. A crate of a few lines is compiled over a copy
# of the sources; its function passes, and the compiler refuses it by [borrow-..] with one line more.
set -eu
here=$(cd "$(dirname "$0")" && pwd)
work=$(mktemp -d)
trap 'rm -rf "$work"' EXIT
for crate in "$here"/../crates/*/; do
    mkdir -p "$work/crates/$(basename "$crate")"
    cp -r "$crate/src" "$work/crates/$(basename "$crate")"
    if [ -d "$crate/specs" ]; then cp -r "$crate/specs" "$work/crates/$(basename "$crate")"; fi
done
mkdir -p "$work/crates/borrowed/src"
{ cat "$here/../crates.txt"; echo "borrowed: rx_draft rx_context"; } > "$work/crates.txt"

# what the compiler says of the function with a line in front of the draft's last use
said() {
    cat > "$work/crates/borrowed/src/main.rt" <<END
#![tactic(auto)]
use rx_context::Plan;
use rx_draft::Draft;
fn drafted<'b>(buffer: &'b mut [u8], plan: &'b Plan) -> usize {
    let draft = Draft::over(buffer, plan, 0);
    $1
    draft.give_back().len()
}
fn main() {}
END
    (cd "$work/crates/borrowed" && rt try 2>&1) || true
}

refused() {
    if said "$1" | grep -q 'error\[borrow-'; then
        echo "refused: $1"
    else
        echo "NOT REFUSED: $1"; exit 1
    fi
}

if said "" | grep 'error\['; then echo "NOT COMPILED without a further line"; exit 1; fi
refused 'let _ = buffer.len();'
refused 'buffer[0] = 1;'
refused 'let _ = Draft::over(buffer, plan, 0).give_back();'
