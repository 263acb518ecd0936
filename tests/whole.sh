#!/usr/bin/env bash
# What can't be read whole or written whole: runs each word of ./krakobran with a full disk, a full temporary folder, a file size
# limit, closed and unreadable descriptors, and holds it to status 1, one line on standard error, and no cut result.
. "$(dirname -- "${BASH_SOURCE[0]}")/lib.sh" || exit 2

longest > "$dir/longest"
longest_report > "$dir/report"
printf '%d;1\n' {1..4096} > "$dir/log"
full="standard output: the result can't be written whole"

# WORD: its arguments, on the longest input; an option is one of `report`, and `--all` of `summary`.
arguments() {
    case $1 in
        report | summary | picture) list=("$1" "$dir/longest") ;;
        --csv | --json) list=(report "$1" "$dir/longest") ;;
        --all) list=(summary "$1" "$dir/longest") ;;
        import) list=(import log 4096 100 "$dir/log") ;;
        export) list=(export log "$dir/longest") ;;
        check) list=(check "$dir/longest" "$dir/report") ;;
        worse) list=(worse "$dir/longest" "$example") ;;
        follow) list=(follow 4096 "$dir/log") ;;
        help) list=(help) ;;
    esac
}

for word in report --csv --json summary --all import export check worse picture follow help; do
    arguments "$word"
    "$krakobran" "${list[@]}" > "$dir/whole"

    # A temporary folder that is missing, or in which no file can have an octet, is not needed.
    cp "$dir/whole" "$dir/expected"
    TMPDIR=$dir/missing try "$word, no temporary folder" 0 '' "${list[@]}"
    (ulimit -f 0 && exec timeout 60 "$krakobran" "${list[@]}" 2> >(cat > "$dir/err")) | cat > "$dir/out"
    judge "$word, no file may grow" 0 '' "${PIPESTATUS[0]}"

    # Standard output that takes nothing, is closed, or takes a part.
    try_full "$word, a full disk" "${list[@]}"
    timeout 60 "$krakobran" "${list[@]}" 2> "$dir/err" >&-
    judge "$word, standard output closed" 1 'standard output: it is closed' "$?"
done
for word in report --csv --json import picture follow; do
    arguments "$word"
    "$krakobran" "${list[@]}" | head -c 1024 > "$dir/expected"
    (ulimit -f 1 && exec timeout 60 "$krakobran" "${list[@]}" > "$dir/out" 2> "$dir/err")
    judge "$word, a file size limit" 1 "$full" "$?"
done

# A reader that goes away ends the command silently, as it does cat. This picture is longer than what a pipe holds.
paste -d ';' <(seq 4096 -1 1) <(seq 4096) > "$dir/backwards"
"$krakobran" import log 4096 100 "$dir/backwards" > "$dir/reversed"
timeout 60 "$krakobran" picture "$dir/reversed" 2> "$dir/err" | head -c 5 > "$dir/out"
found=${PIPESTATUS[0]}
printf '<svg ' > "$dir/expected"
judge 'a reader that goes away' 141 '' "$found"

# With the signal of a broken pipe ignored, as some parents leave it: bad usage on input that the program does not read is still bad
# usage, and a reader that goes away is an error of writing.
: > "$dir/expected"
(trap '' PIPE && exec timeout 60 "$krakobran" import log x 100 "$dir/longest" > "$dir/out" 2> "$dir/err")
judge 'bad usage, a broken pipe ignored' 2 'K is no number from 0 to 4294967295' "$?"
(trap '' PIPE && exec timeout 60 "$krakobran" picture "$dir/reversed" 2> "$dir/err") | head -c 5 > "$dir/out"
found=${PIPESTATUS[0]}
printf '<svg ' > "$dir/expected"
judge 'a reader that goes away, a broken pipe ignored' 1 "$full" "$found"

# A program that does not end well: its output is no result.
mkdir -p "$dir/copy/target/bin" "$dir/copy/docs" "$dir/copy/crates"
cp "$root/krakobran" "$root/crates.txt" "$dir/copy"
for tool in cmd_report cmd_table cmd_check; do
    printf '#!/bin/sh\necho sent 1 arrivals 0\nkill -9 $$\n' > "$dir/copy/target/bin/$tool"
    chmod +x "$dir/copy/target/bin/$tool"
done
: > "$dir/expected"
krakobran=$dir/copy/krakobran
try 'a program that is killed' 1 'the program cmd_report did not end well' report "$example"
try 'a program of a table that is killed' 1 'the program cmd_table did not end well' report --csv "$example"
try 'a program of two files that is killed' 1 'the program cmd_check did not end well' check "$example" "$example_report"
krakobran=$root/krakobran

# Standard input that is a directory, or is closed.
: > "$dir/expected"
for arguments in 'report -' 'report --csv -' 'report --json -' 'import log 5 100 -' 'import owamp 5 100 -' 'export log -' \
    'export owamp -' "check - $example_report" \
    "check $example -" "worse - $example" "worse $example -" 'summary -' 'summary --json -' 'summary --all -' 'picture -' 'follow 5 -'; do
    read -ra list <<< "$arguments"
    name=${arguments//"$root/"/}
    try "$name, a directory" 1 "standard input: it can't be read" "${list[@]}" < /etc
    try "$name, closed" 1 'standard input: it is closed' "${list[@]}" <&-
done

# A closed standard input is no fault of a command that does not read it, and a closed standard error hides no status.
cp "$example_report" "$dir/expected"
try 'a file, standard input closed' 0 '' report "$example" <&-
: > "$dir/expected" && : > "$dir/err"
timeout 60 "$krakobran" picture "$dir/missing" > "$dir/out" 2>&-
judge 'a missing file, standard error closed' 1 '' "$?"

# Standard input is read itself and not opened by a name: here it is a socket, which can't be opened.
if have python3 'standard input that is a socket'; then
    # ARGUMENT..: runs the command on a socket that gives $dir/input.
    socket() {
        timeout 60 python3 -c '
import socket, subprocess, sys
ours, theirs = socket.socketpair()
process = subprocess.Popen(sys.argv[2:], stdin=theirs)
theirs.close()
ours.sendall(open(sys.argv[1], "rb").read())
ours.close()
sys.exit(process.wait())' "$dir/input" "$krakobran" "$@" > "$dir/out" 2> "$dir/err"
    }
    echo 'the listing is right' > "$dir/expected"
    cp "$example_report" "$dir/input"
    socket check "$example" -
    judge 'check, the listing from a socket' 0 '' "$?"
    cp "$example" "$dir/input"
    socket check - "$example_report"
    judge 'check, the sample from a socket' 0 '' "$?"
    printf 'standard input is worse: 1/5 = 20.00 %%; %s (%s): 0/1 = 0.00 %%\n' "$dir/longest" "$(xs 64)" > "$dir/expected"
    socket worse - "$dir/longest"
    judge 'worse, the first from a socket' 0 '' "$?"
fi

# A file that can't be read, or whose name is too long, is no empty file. A file that only its owner can read is read where it is
# standard input already. To be another user this needs root's rights, and a checkout that the other one can read.
: > "$dir/expected"
other=(setpriv --reuid=65534 --regid=65534 --clear-groups)
if [ "$(id -u)" -eq 0 ] && have setpriv "another user's file" && "${other[@]}" "$krakobran" --version > "$dir/out" 2>&1; then
    chmod 755 "$dir"
    cp "$example" "$dir/own"
    cp "$example_report" "$dir/listing"
    chmod 600 "$dir/own"
    "${other[@]}" "$krakobran" report "$dir/own" > "$dir/out" 2> "$dir/err"
    judge "another user's file" 1 "own: it can't be read" "$?"
    "${other[@]}" "$krakobran" worse "$dir/listing" "$dir/own" > "$dir/out" 2> "$dir/err"
    judge "another user's second file" 1 "own: it can't be read" "$?"
    "${other[@]}" "$krakobran" follow 5 "$dir/own" > "$dir/out" 2> "$dir/err"
    judge "another user's log" 1 "own: it can't be read" "$?"
    echo 'the listing is right' > "$dir/expected"
    "${other[@]}" "$krakobran" check - "$dir/listing" < "$dir/own" > "$dir/out" 2> "$dir/err"
    judge "another user's file as standard input" 0 '' "$?"
    : > "$dir/expected"
fi
try 'a name that is too long' 1 'there is no such file' worse "$example" "$dir/$(xs 300)"

# The programs that open files themselves say which one they can't open.
for tool in cmd_worse cmd_check; do
    "$root/target/bin/$tool" "$dir/missing" "$example" > "$dir/out"
    "$root/target/bin/$tool" "$example" "$dir/missing" >> "$dir/out"
    case $tool in
        cmd_worse) printf "the %s sample can't be opened\n" first second > "$dir/expected" ;;
        cmd_check) printf "the %s can't be opened\n" sample listing > "$dir/expected" ;;
    esac
    same "$tool, files that can't be opened" "$dir/out" "$dir/expected"
done

# A read that fails in the middle: here by a head that gives ten octets and fails, as one does on a bad disk.
mkdir "$dir/bad"
printf '#!/bin/sh\nprintf 0123456789\nexit 1\n' > "$dir/bad/head"
chmod +x "$dir/bad/head"
: > "$dir/expected"
path=$dir/bad:$PATH
try 'report, a read that fails in the middle' 1 "stdin: it can't be read" report "$example"
try 'import, a read that fails in the middle' 1 "log: it can't be read" import log 4096 100 "$dir/log"
try 'worse, a read that fails in the middle' 1 "stdin: it can't be read" worse "$example" "$example"

finish
