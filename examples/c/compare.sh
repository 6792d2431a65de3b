#!/bin/bash
# Compiles each function of this folder for BPF, takes its code out of the object by `elf`, runs it in a script by `readl` or `writel`, and
# compares the reply with what the function gives when it is compiled for this machine. Needs gcc, and clang or bpf-gcc for `build`.
#
#   compare.sh LAMBDAIO          compares the objects of `objects/`
#   compare.sh LAMBDAIO build    makes them first: by clang for -mcpu=v1, v2 and v3, and by bpf-gcc
here=$(cd "$(dirname "$0")" && pwd)
lambdaio=$(realpath "$1")
work=$(mktemp -d)
trap 'rm -r "$work"' EXIT
cd "$here" || exit 1

build() {
    mkdir -p objects
    for source in *.c; do
        name=${source%.c}
        [ "$name" = native ] && continue
        for version in v1 v2 v3; do
            clang -O2 -target bpf -mcpu=$version -ffreestanding -c "$source" -o "objects/$name.$version.o" || exit 1
        done
        bpf-gcc -O2 -ffreestanding -fno-toplevel-reorder -c "$source" -o "objects/$name.gcc.o" || exit 1
        strip_unneeded "objects/$name.gcc.o"
    done
    for source in refused/*.c; do
        name=$(basename "${source%.c}")
        clang -O2 -target bpf -mcpu=v3 -ffreestanding -c "$source" -o "objects/refused.$name.o" || exit 1
    done
}

# gcc's objects carry debug sections, which nobody needs here
strip_unneeded() {
    llvm-objcopy --strip-debug "$1" 2> "$work/strip" || true
}

digits() { [ "$1" = - ] && echo "hex:" || echo "hex:$1"; }

# the script that makes a file of the digits $3, loads the code of object $2 and makes the call
script() {
    local kind=$1 code=$2 first=$3 param=$4 second=$5
    local file=$first
    [ "$kind" = readl ] && file=$second
    local length=0
    [ "$file" = - ] || length=$((${#file} / 2))
    echo "a: create f"
    echo "a: write f 0 $(digits "$file")"
    echo "a: load run code $code"
    if [ "$kind" = readl ]; then
        echo "a: readl f 0 $length run 1000000 $first $(digits "$param")"
    else
        echo "a: writel f 0 $length run 1000000 $(digits "$param") $(digits "$second")"
        echo "a: read f 0 $length"
    fi
}

[ "$2" = build ] && build
same=0
refused=0
other=0
while read -r name kind first param second; do
    [ "$name" = '#' ] && continue
    gcc -O2 -fno-strict-aliasing -o "$work/native" native.c "$name.c" || exit 1
    "$work/native" "$kind" "$first" "$param" "$second" > "$work/wanted"
    for object in objects/"$name".*.o; do
        if ! "$lambdaio" elf "$object" .text "$work/code" > "$work/told"; then
            echo "$object: $(cat "$work/told")"
            other=$((other + 1))
            continue
        fi
        code=$(tail -c +9 "$work/code" | od -An -v -tx1 | tr -d ' \n')
        script "$kind" "$code" "$first" "$param" "$second" > "$work/script"
        "$lambdaio" solo - "$work/script" - | sed -n 's/^#[45] a\.[45] //p' > "$work/got"
        if cmp -s "$work/wanted" "$work/got"; then
            same=$((same + 1))
        else
            echo "$object: wanted $(tr '\n' ' ' < "$work/wanted"), got $(tr '\n' ' ' < "$work/got")"
            other=$((other + 1))
        fi
    done
done < cases
for object in objects/refused.*.o; do
    told=$("$lambdaio" elf "$object" .text -)
    case "$told" in
        "badelf relocated "*) refused=$((refused + 1)) ;;
        *)
            echo "$object: $told"
            other=$((other + 1))
            ;;
    esac
done
echo "$same replies as compiled for this machine, $refused refused for relocations, $other others"
[ "$other" = 0 ]
