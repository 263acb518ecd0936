#!/usr/bin/env bash
# Runs `krakobran follow` on logs, as a file, a pipe and lines that come late, on what can't be read or written, and with bad arguments,
# and compares standard output, standard error and the exit status with what is expected. A line for each case; status 1 if one fails.
. "$(dirname -- "${BASH_SOURCE[0]}")/lib.sh" || exit 2

# The line of a refusal.
refusal() {
    printf 'refused %d: %s\n' "$1" "$(words "$1")"
}

cp -- "$root/crates/cmd_follow/stdin" "$dir/log"
cp -- "$root/crates/cmd_follow/stdout" "$dir/expected"
try 'a log by its name' 0 '' follow 5 "$dir/log"
try 'a log on standard input' 0 '' follow 5 < "$dir/log"
try 'a log on standard input by its sign' 0 '' follow 5 - < "$dir/log"

echo 'accepted 0, in order 0, reordered 0, copies 0, closed runs 0, open run 0' > "$dir/expected"
try 'an empty log' 0 '' follow 1 - < /dev/null

# A line that is longer than what is held of it is refused once, and the next one is read.
{
    refusal 14
    echo '1 at 2500 us: in order, jump 0'
    echo 'accepted 1, in order 1, reordered 0, copies 0, closed runs 0, open run 1'
} > "$dir/expected"
try 'a line of 5000 octets' 0 '' follow 1 - < <(head -c 4999 /dev/zero | tr '\0' 1; printf '\n1;2,5\n')

# Beyond the window.
{
    for ((i = 1; i <= 65; i++)); do echo "$((2 * i)) at ${i}000 us: in order, jump 1"; done
    echo '1 at 66000 us: late by more than 64 packets, beyond the window'
    echo '3 at 66500 us: late by 65 packets, 64500 us'
    echo '129 at 65500 us: late by 3 packets, 500 us'
    echo 'accepted 68, in order 65, reordered 3, copies 0, closed runs 3, open run 0'
} > "$dir/expected"
try 'beyond the window' 0 '' follow 130 - < <(for ((i = 1; i <= 65; i++)); do echo "$((2 * i));$i"; done; printf '1;66\n3;66.5\n129;65.5\n')

# An extent of 1 is one packet.
{
    echo '2 at 0 us: in order, jump 1'
    echo '1 at 9000 us: late by 1 packet, 9000 us'
    echo 'accepted 2, in order 1, reordered 1, copies 0, closed runs 1, open run 0'
} > "$dir/expected"
try 'late by one packet' 0 '' follow 2 - < <(printf '2;0\n1;9\n')

# 4,096 arrivals are accepted; the line after them is told once.
{
    echo '1 at 1000 us: in order, jump 0'
    for ((i = 2; i <= 4096; i++)); do echo '1 at 1000 us: copy'; done
    for i in 1 2; do printf '1 at 1000 us: %s\n' "$(refusal 11)"; done
    echo 'accepted 4096, in order 1, reordered 0, copies 4095, closed runs 0, open run 1'
} > "$dir/expected"
try '4098 arrivals' 0 'takes no more; to go on, start a new follow at line 4097' follow 1 - < <(for ((i = 0; i < 4098; i++)); do echo '1;1'; done)

# A line is printed when its line feed comes.
mkfifo "$dir/in" "$dir/said"
exec 5<> "$dir/in" 6<> "$dir/said"
PATH=$path "$timeout" 60 "$krakobran" follow 2 "$dir/in" > "$dir/said" 5>&- 6>&- &
printf '1;1\n2;' >&5
IFS= read -r -t 60 first <&6
printf '3\n' >&5
IFS= read -r -t 60 second <&6
exec 5>&-
wait "$!"
verdict 'lines that come late' "$([ "$first, $second" = '1 at 1000 us: in order, jump 0, 2 at 3000 us: in order, jump 0' ] || echo ", $first, $second")"
exec 6<&-

# A named pipe is opened once, so that nothing of what is written to it is lost.
printf '1 at 1000 us: in order, jump 0\naccepted 1, in order 1, reordered 0, copies 0, closed runs 0, open run 1\n' > "$dir/expected"
echo '1;1' > "$dir/in" &
try 'a named pipe' 0 '' follow 1 "$dir/in"
wait "$!"

# A signal to the command alone ends its program too: the named pipe, which is open here for writing, has no reader then.
: > "$dir/out"
PATH=$path "$krakobran" follow 1 "$dir/in" > "$dir/out" 2> "$dir/err" &
follow=$!
exec 5> "$dir/in"
echo '1;1' >&5
for ((i = 0; i < 600; i++)); do
    [ ! -s "$dir/out" ] || break
    sleep 0.1
done
kill "$follow"
wait "$follow" 2> "$dir/which"
found=$?
for ((i = 0; i < 50; i++)); do
    (trap '' PIPE && echo '1;1' >&5) 2> "$dir/which" || break
    sleep 0.1
done
verdict 'a signal ends the program too' "$([ "$found" -eq 143 ] && [ "$i" -lt 50 ] || echo ", status $found, its input is still read")"
exec 5>&-

# An interrupt ends what writes to the pipe, and then the counts are printed.
printf '1 at 1000 us: in order, jump 0\naccepted 1, in order 1, reordered 0, copies 0, closed runs 0, open run 1\n' > "$dir/expected"
: > "$dir/out"
set -m
{ echo '1;1' && exec sleep 60; } | PATH=$path "$krakobran" follow 1 > "$dir/out" 2> "$dir/err" &
for ((i = 0; i < 600; i++)); do
    [ ! -s "$dir/out" ] || break
    sleep 0.1
done
kill -INT -- "-$(jobs -p %%)"
wait "$!"
judge 'an interrupt' 0 '' "$?"
set +m

: > "$dir/expected"
try 'K of 0' 1 'K is 0 or over 4,096' follow 0 "$dir/log"
try 'K of 4097' 1 'K is 0 or over 4,096' follow 4097 "$dir/log"
try 'K that is no number' 1 'K is 0 or over 4,096' follow x "$dir/log"
try 'no such file' 1 'there is no such file' follow 5 "$dir/none"
try 'a directory' 1 'this is a directory' follow 5 "$dir"
try 'standard input is a directory' 1 "it can't be read" follow 5 < "$dir"
try 'standard input is closed' 1 'it is closed' follow 5 <&-
try 'no K' 2 'usage: krakobran follow K [FILE]' follow
try 'two files' 2 'usage: krakobran follow K [FILE]' follow 5 "$dir/log" "$dir/log"
try_full 'a full disk' follow 5 "$dir/log"

finish
