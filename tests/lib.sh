# shellcheck shell=bash
# What the tests share; they source it. It sets `root`, the checkout; `dir`, a temporary folder that is removed at the end;
# `krakobran` and `path`, the command that is tried and its PATH; `version`, that of the header; and `example` and `example_report`, the
# sample of 76 octets that the report program is stored with, and its report of seven lines. Each test prints a line for each case and
# ends with `finish`, whose status is 1 if a case failed.
set -u

root=$(cd -- "$(dirname -- "${BASH_SOURCE[0]}")/.." && pwd) || exit 2
dir=$(mktemp -d) || exit 2
trap 'rm -rf -- "$dir"' EXIT
krakobran=$root/krakobran path=$PATH
version=$(sed -n 's/^#define KRAKOBRAN_VERSION "\(.*\)"$/\1/p' "$root/include/krakobran.h")
example=$root/crates/cmd_report/stdin example_report=$root/crates/cmd_report/stdout
timeout=$(command -v timeout) || exit 2
failed=0 run=0 left=0

# NAME WRONG: a line for a case, which fails where something is wrong with it.
verdict() {
    run=$((run + 1))
    if [ -n "$2" ]; then
        failed=$((failed + 1))
        printf 'FAILED %s%s\n' "$1" "$2"
    else
        printf 'passed %s\n' "$1"
    fi
}

# NAME STATUS WORDS [ARGUMENT..]: runs the command on standard input, and holds it to what `judge` says. A case that does not end
# within a minute fails with status 124.
try() {
    local name=$1 status=$2 words=$3
    shift 3
    PATH=$path "$timeout" 60 "$krakobran" "$@" > "$dir/out" 2> "$dir/err"
    judge "$name" "$status" "$words" "$?"
}

# NAME STATUS WORDS FOUND: holds $dir/out to $dir/expected and the status FOUND to STATUS. $dir/err is empty where WORDS are,
# and else is one line that ends with them.
judge() {
    local name=$1 status=$2 words=$3 found=$4 wrong=''
    [ "$found" -eq "$status" ] || wrong+=", status $found and not $status"
    cmp -s "$dir/out" "$dir/expected" || wrong+=", standard output: $(head -c 200 "$dir/out" | od -An -c | head -n 3)"
    if [ -z "$words" ]; then
        [ ! -s "$dir/err" ] || wrong+=", standard error: $(head -c 200 "$dir/err")"
    else
        [[ $(< "$dir/err") == krakobran:*"$words" ]] || wrong+=", standard error: $(head -c 200 "$dir/err")"
        [ "$(wc -l < "$dir/err")" -eq 1 ] || wrong+=', not one line on standard error'
    fi
    verdict "$name" "$wrong"
}

# NAME [ARGUMENT..]: runs the command with a standard output that takes nothing.
try_full() {
    local name=$1
    shift
    : > "$dir/out"
    : > "$dir/expected"
    PATH=$path "$timeout" 60 "$krakobran" "$@" > /dev/full 2> "$dir/err"
    judge "$name" 1 "standard output: the result can't be written whole" "$?"
}

# NAME FILE FILE: the files are the same.
same() {
    verdict "$1" "$(cmp "$2" "$3" 2>&1 | sed 's/^/, /')"
}

# PROGRAM NAME: whether a program is there; if not, says what is left out.
have() {
    command -v "$1" > "$dir/which" && return
    left=$((left + 1))
    printf 'skipped %s: %s is not on the path\n' "$2" "$1"
    return 1
}

# FOLDER PROGRAM..: makes a folder that has these programs alone, to be a PATH.
bare() {
    local folder=$1 program
    shift
    mkdir "$folder"
    for program in "$@"; do ln -s "$(command -v "$program")" "$folder/$program"; done
}

# The words of a refusal, from the table of docs/CALLS.md.
words() {
    local found
    found=$(sed -n "s/^| $1 | \(.*\) |\$/\1/p" "$root/docs/CALLS.md" | head -n 1)
    printf '%s\n' "${found:-no words in docs/CALLS.md}"
}

# Numbers as octets, of two, four and eight.
two() { printf "$(printf '\\%03o' $(($1 >> 8 & 255)) $(($1 & 255)))"; }
four() { two $(($1 >> 16)) && two "$1"; }
eight() { four $(($1 >> 32)) && four "$1"; }

# LABEL K [NUMBER TIME].. : a sample file, of payload sizes of 100.
sample() {
    local k=$2 i
    two "${#1}" && printf '%s' "$1" && two "$k"
    shift 2
    for ((i = 0; i < k; i++)); do two 100; done
    two $(($# / 2))
    while [ $# -gt 0 ]; do
        four "$1" && eight "$2"
        shift 2
    done
}

# N: the letter x, N times.
xs() { printf "%$1s" '' | tr ' ' x; }

# The arrivals of the example, as a log.
example_log() { printf '%d;0,%03d\n' 1 10 2 20 4 40 5 50 3 70; }

# The longest sample, of 57,414 octets: every arrival is packet 1 at 0.
longest() {
    two 64 && xs 64
    two 4096 && printf '\000\144%.0s' {1..4096}
    two 4096 && printf '\000\000\000\001\000\000\000\000\000\000\000\000%.0s' {1..4096}
}

# Its report, of 4,098 lines.
longest_report() {
    printf 'sent 4096 arrivals 4096\n1 1 in 1 0\n'
    printf '%d 1 copy 1\n' {2..4096}
    printf 'end 1 0 4095 0 0 1\n'
}

# Prints how many cases passed; status 1 if one failed.
finish() {
    printf '%d passed, %d failed, %d left out\n' $((run - failed)) "$failed" "$left"
    [ "$failed" -eq 0 ]
}
