#!/usr/bin/env bash
# Units of fuel a second of the interpreter, by processor time. `rt run` in crates/bpf_bench builds the program.
#
#   interpreter.sh             counts line feeds, and loops over arithmetic
#   interpreter.sh LAMBDAIO    also runs functions of examples/c, taken out of their objects by `elf`
here=$(cd "$(dirname "$0")" && pwd)
program=$here/../crates/bpf_bench/out/bpf_bench
TIMEFORMAT='seconds=%U'

measure() {
    local printed units seconds
    printed=$( { time "$program" "${@:2}"; } 2>&1 )
    units=$(sed -n 's/^units=//p' <<<"$printed")
    seconds=$(sed -n 's/^seconds=//p' <<<"$printed")
    awk -v name="$1" -v units="$units" -v seconds="$seconds" 'BEGIN {
        printf "%s: %d units in %.2f seconds, %.2f nanoseconds a unit\n", name, units, seconds, 1000000000 * seconds / units
    }'
}

measure "lines 256" lines 256
measure "spin 2000" spin 2000
[ $# -eq 0 ] && exit

lambdaio=$(realpath "$1")
work=$(mktemp -d)
trap 'rm -r "$work"' EXIT
# The same 256 KiB each time: digits, commas, signs, letters and line feeds.
awk 'BEGIN { srand(2); for (i = 0; i < 262144; i++) printf "%s", substr("0123456789,\n-abc ", int(17 * rand()) + 1, 1) }' >"$work/input"
for function in aggregate crc32c histogram mix_words sum_numbers; do
    for cpu in v1 v3; do
        (cd "$work" && "$lambdaio" elf "$here/../examples/c/objects/$function.$cpu.o" .text object) >"$work/printed" || continue
        measure "$function $cpu" code 64 "$work/object" "$work/input"
    done
done
