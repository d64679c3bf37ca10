#!/usr/bin/env bash
# Compares what `rflx check` prints of small and large messages and of the examples with a plain search (search.py).
. "$(dirname "$0")/ours.sh"
for kind in table fields links paths; do
    python3 "$here/messages.py" "$kind" > "$work/$kind.rflx"
done
python3 "$here/search.py" "$ours" "$work"/*.rflx "$here"/../examples/*.rflx "$here"/../examples/faults/*.rflx
