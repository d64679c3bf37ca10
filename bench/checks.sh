#!/usr/bin/env bash
# Measures what checks cost, and what a command costs that checks first: the processor time and the memory of whole processes.
# `decode` reads 5 bytes of TLV and 60 of Ethernet.
#   RUNS   how many runs of each, of which the least time counts; 9 if not set
. "$(dirname "$0")/ours.sh"
runs=${RUNS:-9}
cp "$here"/../examples/*.rflx "$work"
cat > "$work/hard.rflx" <<'END'
package Hard is
   type U8 is unsigned 8;
   type M is message A : U8; B : U8 then null if 3 * A + 5 * B = 7; end message;
end Hard;
END
python3 - > "$work/ways.rflx" <<'END'
# eight fields that each lead to one of two more, which meet again: 256 whole paths
print("package Ways is\n   type U8 is unsigned 8;\n   type M is message")
for k in range(8):
    print(f"      F{k} : U8 then L{k} if F{k} < 128 then R{k} if F{k} >= 128;")
    after = f"F{k + 1}" if k < 7 else "null"
    print(f"      L{k} : U8 then {after};\n      R{k} : U8 then {after};")
print("   end message;\nend Ways;")
END

measure() {
    input=$1
    shift
    used=$("$work/timed" "$runs" "$work" "$ours" "$@" < "$input")
    line=$(cd "$work" && "$ours" "$@" < "$input" | tail -n 1) || true
    printf '%-28s %s  %s\n' "$*" "$used" "$(printf '%s' "$line" | cut -c 1-60)"
}

printf '\1\0\2\12\13' > "$work/tlv.bytes"
{ printf '\377\377\377\377\377\377\0\0\0\0\0\1\10\0'; head -c 46 /dev/zero; } > "$work/ethernet.bytes"

measure /dev/null check TLV
measure /dev/null check Ethernet
measure /dev/null check Hard --splits 255
measure /dev/null check Ways
measure "$work/tlv.bytes" decode TLV::Message
measure "$work/ethernet.bytes" decode Ethernet::Frame
