#!/bin/sh
# portable.sh OUT [ROUNDS]: runs tests/portable.c natively, and under an emulator for each other target of tools/cross/targets, over the
# archives that are compiled from OUT/module.ll. Each run must print the stored answers of the papers' cases, tests/portable.txt, and the
# numbers of calls and hashes of the native run, which must have called every export. Before that, the object that is compiled for
# x86-64 in the same way must be the one that the kit itself has put into target/libkrakobran.a, octet for octet. What is not installed is
# named and left out; with REQUIRED=1 that is a failure. Under Linux tests/interface.c runs too, which measures the stack. LEVEL is the level of optimisation, -O3 if not set.
set -eu
root=$(cd "$(dirname "$0")/.." && pwd -P)
cross=$root/tools/cross out=$(cd "$1" && pwd -P) rounds=${2:-100} level=${LEVEL:--O3}
. "$cross/kit.sh"
native=$out/x86_64-linux-gnu
failed=0 left=0
flags_of_c="-std=c11 -O2 -Wall -Wextra -Wpedantic -I$root/include"

fail() {
    failed=$((failed + 1))
    echo "FAILED $*"
}

leave_out() {
    left=$((left + 1))
    echo "left out $1: not on the path:$2"
}

# FILE EXPECTED: they are the same; if not, shows where.
same() {
    diff "$1" "$2" > "$out/differ" && return
    head -n 20 "$out/differ" | sed 's/^/    /'
    return 1
}

# FOLDER COMMAND..: runs the test, and holds it to the stored answers and to the native run.
run() {
    folder=$1
    shift
    "$@" cases > "$folder/cases" 2>&1 || true
    "$@" "$rounds" > "$folder/calls" 2>&1 || true
    same "$folder/cases" "$root/tests/portable.txt" && same "$folder/calls" "$native/calls" && grep -q '^faults 0$' "$folder/calls"
}

"$cross/compile.sh" "$out" x86_64-linux-gnu -O3
"$bin/llvm-ar" p "$root/target/libkrakobran.a" > "$out/kit.o"
if cmp "$native/module.o" "$out/kit.o"; then
    echo 'passed x86-64: the object is the one in target/libkrakobran.a, octet for octet'
else
    fail 'x86-64: the object is not the one in target/libkrakobran.a'
fi
${CC:-cc} $flags_of_c "$root/tests/portable.c" "$native/libkrakobran.a" -o "$native/portable"
if run "$native" "$native/portable"; then
    echo "passed native: $(awk '/^krakobran/ { n += $2 } END { print n }' "$native/calls") calls of $(grep -c '^krakobran' "$native/calls") exports"
else
    cat "$native/calls"
    fail native
fi
grep -v '^define internal' "$out/module.ll" | sed -n 's/^define [^@]*@\(krakobran_[a-z0-9_]*\)(.*/\1/p' | sort > "$out/exported"
sed -n 's/^\(krakobran_[a-z0-9_]*\) .*/\1/p' "$native/calls" | sort > "$out/called"
same "$out/exported" "$out/called" || fail 'the test does not call every export'

awk -F'  +' '!/^#/ && $3 != "-" { print $1, $3, $5, $4 }' "$cross/targets" > "$out/list"
while read -r target gnu emulator flags; do
    case $emulator in
    qemu-*) needed=$emulator more= ;;
    *) needed=qemu-system-arm more="--specs=rdimon.specs -T$cross/board/board.ld -Wl,--no-warn-execstack $cross/board/start.c" ;;
    esac
    missing=
    for program in "$gnu-gcc" "$needed"; do command -v "$program" > "$out/which" || missing="$missing $program"; done
    if [ -n "$missing" ]; then
        leave_out "$target" "$missing"
        continue
    fi
    "$cross/compile.sh" "$out" "$target" "$level"
    program=$out/$target/portable
    "$gnu-gcc" $flags_of_c $flags -Wl,--gc-sections "$root/tests/portable.c" $more "$out/$target/libkrakobran.a" -o "$program"
    case $emulator in
    qemu-*) set -- "$emulator" "$program" ;;
    *) set -- "$cross/board/run.sh" "$emulator" "$program" ;;
    esac
    if run "$out/$target" "$@" < /dev/null; then echo "passed $target, $level"; else fail "$target, $level"; fi
    case $emulator in
    qemu-*)
        interface=$out/$target/interface
        "$gnu-gcc" $flags_of_c $flags "$root/tests/interface.c" "$out/$target/libkrakobran.a" -o "$interface"
        if "$emulator" "$interface" > "$interface.txt" < /dev/null; then
            echo "passed $target, tests/interface.c: $(tail -n 1 "$interface.txt")"
        else
            grep FAILED "$interface.txt" | sed 's/^/    /'
            fail "$target, tests/interface.c"
        fi
        ;;
    esac
done < "$out/list"

compiled=$(while read -r target more; do [ ! -f "$out/$target/level" ] || echo "$target"; done < "$out/list")
if [ -z "$compiled" ]; then
    left=$((left + 1))
    echo 'left out the table of stack: no target was compiled'
elif command -v python3 > "$out/which"; then
    if "$cross/stack" "$out" $compiled > "$out/stack.md"; then echo "passed stack: $out/stack.md has the table"; else fail stack; fi
else
    leave_out 'the table of stack' ' python3'
fi
echo "$failed failed, $left left out"
[ "$failed" -eq 0 ] && { [ "${REQUIRED:-0}" != 1 ] || [ "$left" -eq 0 ]; }
