#!/bin/sh
# exports.sh [MODULE]: whether every export can be called from C on every machine: pointers and integers go in, 64 bits or nothing
# comes back. Looks at the declarations of crates/capi/src, of include/krakobran.h and, if it is given, of MODULE, the LLVM module
# of the archive; all must have the same functions with the same forms.
#
# The module alone would not do: a struct of two u32 is returned as an i64 there, which is C's convention on x86-64 and not on armv7.
# A result of 32 bits is refused, since the module does not say how to extend it, and riscv64 and s390x each have a rule for that. A
# parameter of 16 or 32 bits is fine, since the code relies on no extension of it.
set -eu
root=$(cd "$(dirname "$0")/.." && pwd -P)
work=$(mktemp -d)
trap 'rm -rf "$work"' EXIT
bad=0

# Reads lines NAME|PARAMETERS|RESULT; refuses what is no form of `parameter`, a parameter's type, or of `result`.
check() {
    awk -F'|' -v from="$1" -v parameter="^($2)\$" -v result="^($3)\$" '
        { total++; why = ""; n = split($2, list, ",")
          for (i = 1; i <= n; i++) { t = list[i]; gsub(/^ +| +$/, "", t); if (t != "" && t !~ parameter) why = why " (" t ")" }
          if ($3 !~ result) why = why " (result " $3 ")"
          if (why != "") { bad++; print "not for every machine, " from ": " $1 why } }
        END { print from ": " total - bad " of " total " exports are for every machine"; exit bad > 0 || total == 0 }'
}

# name: type, .. in Rattle
cat "$root"/crates/capi/src/*.rt | tr '\n' ' ' | sed 's/#\[unsafe(no_mangle)\] *pub extern "C" fn /\n@/g' |
    sed -n 's/^@\([a-z0-9_]*\)(\([^)]*\)) *\(-> *\([^ ]*\)\)\{0,1\} .*/\1|\2|\4/p' | sed 's/[a-z0-9_]*: *//g' > "$work/source"
check crates/capi/src 'u16|u32|u64|&(mut )?\[u(8|16|32|64)\]|&(mut )?\[u(32|64); [A-Z0-9_:]+\]|&mut (Receiver|Meter)' 'u64|' \
    < "$work/source" || bad=1

# type name, .. in C, with comments and line breaks removed
tr '\n' ' ' < "$root/include/krakobran.h" | sed 's|/\*[^*]*\*\+\([^/*][^*]*\*\+\)*/||g' | tr ';' '\n' |
    sed -n 's/^.*\(uint64_t\|void\) \(krakobran_[a-z0-9_]*\)(\(.*\)) *$/\2|\3|\1/p' | tr -s ' ' |
    sed -e 's/krakobran_tally|\(.*\)uint32_t tally\[[A-Z_]*\]/krakobran_tally|\1uint32_t *tally/' > "$work/header"
check include/krakobran.h '(const )?(uint(8|16|32|64)_t|krakobran_[a-z_]+) \*[a-z_0-9]+|uint(16|32|64)_t [a-z_0-9]+|void' 'uint64_t|void' \
    < "$work/header" || bad=1

# The forms in the words of the module, so that the three can be compared: a slice is a pointer and a length.
words='s/ *, */,/g; s/ *| */|/g'
sed -e 's/&\(mut \)\{0,1\}\[u[0-9]*\]/ptr,i64/g; s/&\(mut \)\{0,1\}\[u[0-9]*; [^]]*\]/ptr/g; s/&mut [A-Z][a-z]*/ptr/g' \
    -e 's/u\(16\|32\|64\)/i\1/g; s/|$/|void/; s/, *|/|/' -e "$words" "$work/source" | sort > "$work/source.form"
sed -e 's/\(const \)\{0,1\}[a-z0-9_]* \*[a-z0-9_]*/ptr/g; s/uint\([0-9]*\)_t [a-z0-9_]*/i\1/g; s/|void|/||/; s/uint64_t/i64/' \
    -e "$words" "$work/header" | sort > "$work/header.form"
# FILE NAME: has the forms of the source.
agrees() {
    diff "$work/source.form" "$1" > "$work/differ" && return
    bad=1
    echo "crates/capi/src (<) and $2 (>) differ:"
    grep '^[<>]' "$work/differ"
}
agrees "$work/header.form" include/krakobran.h

if [ $# -gt 0 ]; then
    grep '^define [^@]*@krakobran_' "$1" | grep -v '^define internal' |
        sed 's/^define \(.*\) @\(krakobran_[a-z0-9_]*\)(\([^)]*\)).*/\2|\3|\1/; s/noundef //g; s/ %[a-z0-9]*//g' > "$work/module"
    check 'the module' 'ptr|i64|i32|i16' 'i64|void' < "$work/module" || bad=1
    sed -e "$words" "$work/module" | sort > "$work/module.form"
    agrees "$work/module.form" 'the module'
fi
exit $bad
