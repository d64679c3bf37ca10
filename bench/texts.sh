#!/usr/bin/env bash
# Measures how reading a package's text grows: the processor time and the memory of `rflx decode Q::M` over texts.py.
#   RUNS   how many runs of each, of which the least time counts; 5 if not set
. "$(dirname "$0")/ours.sh"
runs=${RUNS:-5}

for kind in messages dense chains; do
    for size in 65536 262144 1048576; do
        python3 "$here/texts.py" "$kind" "$size" > "$work/q.rflx"
        used=$("$work/timed" "$runs" "$work" "$ours" decode Q::M < /dev/null)
        line=$(cd "$work" && "$ours" decode Q::M < /dev/null) || true
        printf '%-8s %8d bytes %s  %s\n' "$kind" "$(stat -c %s "$work/q.rflx")" "$used" "$line"
    done
done
