#!/bin/bash
# Times the built program on work of several sizes, and beside it a second one that takes the same words:
#     bench/bench.sh crates/crash_cli/out/crash_cli [OTHER]
# Each row is the best of RUNS runs (5, or that of the environment): processor time in seconds, and peak memory in MB.
# Of two programs the runs go in turn, and the last columns have the ratios. It needs GNU time, and is no part of the gate.
set -u
here=$(CDPATH='' cd -- "$(dirname -- "$0")" && pwd) || exit 1
program=${1:?the path of the built program}
other=${2:-}
runs=${RUNS:-5}
room=$(mktemp -d) || exit 1
trap 'rm -rf "$room"' EXIT

# A program file of these instruction words at 00010000, and of 4,096 zeros at 00020000.
elf() {
    local file=$1 word bytes=$((4 * ($# - 1))) all=()
    shift
    all+=(0x464c457f 0x00010101 0 0 0x00f30002 1 0x10000 52 0 0 0x00200034 0x00280002 0)
    all+=(1 116 0x10000 0x10000 "$bytes" "$bytes" 5 4)
    all+=(1 $((116 + bytes)) 0x20000 0x20000 0 4096 6 4)
    for word in "${all[@]}" "$@"; do
        printf '%b' "$(printf '\\x%02x\\x%02x\\x%02x\\x%02x' $((word & 255)) $((word >> 8 & 255)) $((word >> 16 & 255)) $((word >> 24 & 255)))"
    done >"$room/$file"
}

# lui rd,upper and addi rd,rs,immediate
lui() { echo $(($2 << 12 | $1 << 7 | 0x37)); }
addi() { echo $((($3 & 4095) << 20 | $2 << 15 | $1 << 7 | 0x13)); }

# Counts x5 up to a number of turns, and meets an EBREAK: two steps a turn and three more.
counting() {
    local turns=$1 upper=$((($1 + 2048) >> 12))
    elf "$2" "$(lui 6 $upper)" "$(addi 6 6 $((turns - (upper << 12))))" "$(addi 5 5 1)" 0xfe629ee3 0x00100073
}

# Reads 256 bytes to 00020000, and copies each of them 256 bytes further, again and again: four steps a byte.
copying() {
    local turns=$1 upper=$((($1 + 2048) >> 12))
    elf "$2" "$(lui 11 32)" "$(addi 12 0 256)" "$(addi 17 0 63)" 0x00000073 \
        "$(lui 6 $upper)" "$(addi 6 6 $((turns - (upper << 12))))" "$(addi 13 11 256)" \
        "$(addi 7 11 0)" 0x0003c283 0x10538023 "$(addi 7 7 1)" 0xfed39ae3 "$(addi 8 8 1)" 0xfe6414e3 0x00100073
}

# The least time of a program on these words, and its most memory.
measure() {
    /usr/bin/time -f '%U %S %M' -o "$room/time" "$@" >"$room/out" 2>"$room/err" ||
        echo "bench: status $? of: $*: $(cat "$room/err")" >&2
    tail -n 1 "$room/time"
}

row() {
    local name=$1 turn
    shift
    : >"$room/ours"
    : >"$room/theirs"
    for turn in $(seq "$runs"); do
        measure "$program" "$@" >>"$room/ours"
        cp "$room/out" "$room/first"
        if [ -n "$other" ]; then
            measure "$other" "$@" >>"$room/theirs"
            cmp -s "$room/first" "$room/out" || echo "bench: another answer on: $*" >&2
        fi
    done
    awk -v name="$name" '
        { time = $1 + $2; if (FILENAME == ARGV[1]) { if (!a || time < at) at = time; if ($3 > am) am = $3; a++ }
          else { if (!b || time < bt) bt = time; if ($3 > bm) bm = $3; b++ } }
        END {
            printf "| %s | %.2f s | %.1f MB |", name, at, am / 1024
            if (b) printf " %.2f s | %.1f MB | %.1f x | %.1f x |", bt, bm / 1024, (bt > 0 ? at / bt : 0), am / bm
            printf "\n"
        }' "$room/ours" "$room/theirs"
}

cd "$room" || exit 1
head -c 256 /dev/zero | tr '\0' 'a' >input
: >empty
echo "| Work | time | memory |${other:+ other time | other memory | time | memory |}"
echo "|---|---|---|${other:+---|---|---|---|}"
for steps in 1250000 2500000 5000000 10000000; do
    counting $(((steps - 3) / 2)) counting
    row "run, $steps steps" run counting empty --steps $steps
    row "make, $steps steps that read nothing" make counting empty --steps $steps
done
for steps in 1250000 2500000 5000000 10000000; do
    copying $((steps / 1030)) copying
    row "make, about $steps steps that copy read bytes" make copying input --steps $steps
done
for size in 4096 16384 65536; do
    row "demo single $size" demo single $size
    row "demo triple $size" demo triple $size
done
