#!/usr/bin/env bash
# Runs `krakobran import` on accepted and refused logs, logs of short numbers and OWAMP records, on what is no file and with bad
# arguments, and compares standard output, standard error and the exit status with what is expected. A line for each case; status 1
# if one fails.
. "$(dirname -- "${BASH_SOURCE[0]}")/lib.sh" || exit 2

# NAME REFUSAL PLACE KIND K: standard input is refused at a line, if PLACE has one, with a size of 100.
refused() {
    : > "$dir/expected"
    try "$1" 1 "$3$(words "$2")" import "$4" "$5" 100 -
}

# NAME LINE WORDS: of the log of standard input, for K of 2, a line is refused with what is wrong with it.
malformed() {
    : > "$dir/expected"
    try "$1" 1 "line $2: $3" import log 2 100 -
}

# SEQUENCE SECONDS FRACTION: an OWAMP record by octets of its sequence number and receive time.
record() {
    printf "\\0\\0\\0\\$1************\\0\\0\\0\\$2\\$3\\0\\0\\0*"
}

# Samples by their octets: the request's own log, and no arrivals.
printf '\0\0\0\3\0\144\0\144\0\144\0\3' > "$dir/expected"
for r in '\1 \021\224' '\2 \021\224' '\3 \257\310'; do
    printf "\\0\\0\\0${r% *}\\0\\0\\0\\0\\0\\0${r#* }" >> "$dir/expected"
done
printf '1;4,5\n2;4.5\n3;45\n' > "$dir/log"
try 'a log on standard input' 0 '' import log 3 100 - < "$dir/log"
try 'a log by its name' 0 '' import log 3 100 "$dir/log"
try 'arguments with leading zeros' 0 '' import log 0003 0100 "$dir/log"
printf '\0\0\0\1\377\377\0\0' > "$dir/expected"
try 'an empty log, and the greatest size' 0 '' import log 1 65535 - < /dev/null

# OWAMP records: packets 2 and 1 in the order of their times, half a second apart, with a lost one of packet 8 between.
printf '\0\0\0\2\0\144\0\144\0\2\0\0\0\1\0\0\0\0\0\0\0\0\0\0\0\2\0\0\0\0\0\7\241\40' > "$dir/expected"
{
    record 1 2 200
    record 7 0 0
    record 0 2 0
} > "$dir/records"
try 'records on standard input' 0 '' import owamp 2 100 - < "$dir/records"
try 'records by their name' 0 '' import owamp 2 100 "$dir/records"
printf '\0\0\0\1\377\377\0\0' > "$dir/expected"
try 'no record, and the greatest size' 0 '' import owamp 1 65535 - < /dev/null
refused 'records, K of 0' 4 '' owamp 0 < "$dir/records"
refused 'records, number K + 1' 6 '' owamp 1 < "$dir/records"
refused 'records, one octet more' 15 '' owamp 0 < <(cat "$dir/records"; printf 1)
: > "$dir/expected"
try 'records, over 262144 octets' 1 'the input has over 262144 octets' import owamp 1 100 - < <(head -c 262145 /dev/zero)

# The report of a log, in one line of shell.
example_log | "$krakobran" import log 5 100 - | "$krakobran" report - > "$dir/out"
same 'the report of a log' "$dir/out" "$example_report"

# 4,096 lines and more.
refused '4097 lines' 5 'line 4097: ' log 4096 < <(printf '%d;1\n' {1..4096} 1)
try '4097 lines, the last malformed' 1 'line 4097: it begins with no digit, as a header does' import log 4096 100 - < <(printf '%s;1\n' {1..4096} x)

# Refused logs.
refused 'K of 0' 4 '' log 0 < "$dir/log"
refused 'K of 4097' 4 '' log 4097 < "$dir/log"
refused 'number K + 1' 6 'line 3: ' log 2 < "$dir/log"
refused 'a time less by 1001 microseconds' 7 'line 2: ' log 2 < <(printf '1;5\n2;3,999\n')
refused 'a time less by 1001 than the greatest' 7 'line 3: ' log 2 < <(printf '1;2\n2;1,5\n1;0,999\n')

# What is wrong with a line.
windows='a carriage return stands in it, as in a Windows file'
no_form='it is not a sequence number, a semicolon and a time in milliseconds'
malformed 'a carriage return' 1 "$windows" < <(printf '1;5\r\n')
malformed 'a carriage return after decimals' 2 "$windows" < <(printf '1;5\n2;5,5\r\n')
malformed 'a carriage return alone' 1 "$windows" < <(printf '\r\n')
malformed 'a carriage return after the number' 1 "$windows" < <(printf '1\r2')
malformed 'a byte order mark' 1 'it begins with a byte order mark' < <(printf '\357\273\2771;5\n')
malformed 'two octets of a byte order mark' 1 'it begins with no digit, as a header does' < <(printf '\357\2731;5\n')
malformed 'a header' 1 'it begins with no digit, as a header does' < <(printf 'number;time\n1;5\n')
malformed 'octet 0' 1 'it begins with no digit, as a header does' < <(printf '\0')
malformed 'a space before the number' 2 'it begins with no digit, as a header does' < <(printf '1;5\n 2;5\n')
malformed 'an empty line' 2 'it is empty' < <(printf '1;5\n\n2;5\n')
malformed 'no last line feed' 2 'no line feed ends it' < <(printf '1;5\n2;6')
malformed 'no last line feed, after the number' 2 'no line feed ends it' < <(printf '1;5\n2')
malformed 'no last line feed, after the comma' 1 'no line feed ends it' < <(printf '1;5,')
malformed 'four decimals' 1 'its time has more than three decimals' < <(printf '1;5,0000\n')
malformed 'four decimals after a point' 2 'its time has more than three decimals' < <(printf '1;5\n2;5.1234\n')
malformed 'a number of 2^32' 1 'its sequence number is over 4294967295' < <(printf '4294967296;5\n')
malformed 'a time of 2^64 microseconds' 1 'its time is over 18446744073709551.615 milliseconds' < <(printf '1;18446744073709551,616\n')
malformed 'a time of 30 digits' 1 'its time is over 18446744073709551.615 milliseconds' < <(printf '1;100000000000000000000000000000\n')
malformed 'no semicolon' 1 "$no_form" < <(printf '1,5\n')
malformed 'no time' 1 "$no_form" < <(printf '1;\n')
malformed 'no decimals' 1 "$no_form" < <(printf '1;5,\n')
malformed 'a third field' 2 "$no_form" < <(printf '1;5\n2;6;7\n')
malformed 'octet 0 after the time' 1 "$no_form" < <(printf '1;5\0\n')

# The label.
{ two 5 && printf 'radio' && printf '\0\1\0\144\0\0'; } > "$dir/expected"
try 'a label' 0 '' import log --label radio 1 100 - < /dev/null
try 'a label before the word' 0 '' --label radio import log 1 100 - < /dev/null
try 'a label after an equals sign' 0 '' import log 1 100 --label=radio - < /dev/null
try 'a label of records' 0 '' import owamp --label radio 1 100 - < /dev/null
{ two 64 && xs 64 && printf '\0\1\0\144\0\0'; } > "$dir/expected"
try 'a label of 64 octets' 0 '' import log --label "$(xs 64)" 1 100 - < /dev/null
{ two 9 && printf -- '--label k' && printf '\0\1\0\144\0\0'; } > "$dir/expected"
try 'a label that begins as an option' 0 '' import log --label '--label k' 1 100 - < /dev/null
: > "$dir/expected"
try 'a label of 65 octets' 1 "$(words 3)" import log --label "$(xs 65)" 1 100 - < /dev/null
try 'a label of 9000 octets' 1 "$(words 3)" import log --label "$(xs 9000)" 1 100 - < /dev/null
try 'a label with a tabulator' 1 "$(words 13)" import log --label $'a\tb' 1 100 - < /dev/null
try 'a refused log before a refused label' 1 "line 1: it is empty" import log --label $'a\tb' 1 100 - < <(echo)
try 'no text after --label' 2 'a text must follow --label' import log 1 100 - --label
try '--label of another command' 2 '--label is no option of report; see krakobran help' report --label radio - < /dev/null
try 'over 262144 octets' 1 'the input has over 262144 octets' import log 1 100 - < <(head -c 262145 /dev/zero)

# Logs of short numbers: what is written is the sample of the log with the full numbers. A wrap and a late number across it.
# NAME BITS K FULL SHORT: the log of SHORT numbers of BITS is imported as that of the FULL numbers.
short() {
    local full short
    read -ra full <<< "$4"
    read -ra short <<< "$5"
    "$krakobran" import log "$3" 100 - > "$dir/expected" < <(number_lines "${full[@]}")
    try "$1" 0 '' import log --bits "$2" "$3" 100 - < <(number_lines "${short[@]}")
}

# NUMBER..: a log of these numbers, a millisecond apart.
number_lines() {
    local time=0 number
    for number in "$@"; do
        time=$((time + 1))
        printf '%d;%d\n' "$number" "$time"
    done
}

# NAME BITS REFUSAL LINE K: the log of standard input is refused at a line.
short_refused() {
    : > "$dir/expected"
    try "$1" 1 "line $4: $(words "$3")" import log --bits "$2" "$5" 100 -
}
short '8 bits across 256, late 254' 8 259 '100 200 255 256 259 254' '100 200 255 0 3 254'
short '10 bits across 1024, late 1020' 10 1029 '500 1000 1023 1024 1029 1020' '500 1000 1023 0 5 1020'
short '8 bits, half the range below the greatest' 8 300 '100 200 72' '100 200 72'
short '8 bits, less than half above it' 8 300 '100 200 255 299 171' '100 200 255 43 171'
short '8 bits, copies across the wrap' 8 300 '100 200 256 200 256' '100 200 0 200 0'
short '10 bits, 256 and 511' 10 600 '256 511' '256 511'
short '8 bits, every number twice round' 8 600 "$(echo {1..600})" "$(for i in {1..600}; do printf '%d ' $((i % 256)); done)"
short '10 bits, every number of 4096' 10 4096 "$(echo {1..4096})" "$(for i in {1..4096}; do printf '%d ' $((i % 1024)); done)"
{ two 5 && printf 'radio\0\1\0\144\0\0'; } > "$dir/expected"
try 'bits and a label' 0 '' import log --bits 8 --label radio 1 100 - < /dev/null
try 'bits before the word' 0 '' --label=radio --bits 10 import log 1 100 - < /dev/null
try 'bits after an equals sign' 0 '' import log 1 100 --bits=10 --label radio - < /dev/null
short_refused '8 bits, 0 as the first number' 8 6 1 400 < <(number_lines 0)
short_refused '8 bits, a first number found below 1' 8 6 1 400 < <(number_lines 200)
short_refused '8 bits, a number of 256' 8 6 2 400 < <(number_lines 1 256)
short_refused '10 bits, a number of 1024' 10 6 3 4096 < <(number_lines 500 1000 1024)
short_refused '8 bits, a number of 2^32 - 1' 8 6 1 400 < <(number_lines 4294967295)
short_refused '8 bits, a number found over K' 8 6 4 255 < <(number_lines 100 200 255 0)
short_refused '10 bits, a number found over K' 10 6 4 1023 < <(number_lines 500 1000 1023 0)
short_refused '8 bits, a time less by 1001 microseconds' 8 7 2 400 < <(printf '1;5\n2;3,999\n')
short_refused '8 bits, 4097 lines' 8 5 4097 4096 < <(printf '1;1\n%.0s' {1..4097})
: > "$dir/expected"
try '8 bits, a malformed line' 1 'line 2: it is empty' import log --bits 8 400 100 - < <(printf '1;1\n\n0;1\n')
try '10 bits, a header' 1 'line 1: it begins with no digit, as a header does' import log --bits 10 400 100 - < <(printf 'number;time\n')
try '8 bits, a number of 2^32' 1 'line 1: its sequence number is over 4294967295' import log --bits 8 400 100 - < <(printf '4294967296;5\n')
try '8 bits, K of 0' 1 "$(words 4)" import log --bits 8 0 100 - < <(echo)
try '10 bits, K of 4097' 1 "$(words 4)" import log --bits 10 4097 100 - < /dev/null
try '8 bits, a label of 65 octets' 1 "$(words 3)" import log --bits 8 --label "$(printf 'x%.0s' {1..65})" 1 100 - < /dev/null
try 'no number after --bits' 2 '8 or 10 must follow --bits' import log 1 100 - --bits
for bits in 9 '' 08 16 -8 ' 8'; do
    try "bits of '$bits'" 2 "--bits is 8 or 10, and not '$bits'" import log --bits "$bits" 1 100 - < /dev/null
done
try 'bits of records' 2 '--bits is no option of import owamp; see krakobran help' import owamp --bits 8 1 100 - < /dev/null
try '--bits of another command' 2 '--bits is no option of report; see krakobran help' report --bits 8 - < /dev/null

# What is no file, and bad usage.
try 'a missing file' 1 'there is no such file' import log 1 100 "$dir/missing"
try 'a directory' 1 'this is a directory' import log 1 100 "$dir"
for arguments in '' log 'log 5' 'log 5 100' 'log 5 100 a b' '5 100 a' 'records 5 100 a'; do
    read -ra list <<< "$arguments"
    try "bad usage: import $arguments" 2 'usage: krakobran import log|owamp [--bits 8|10] [--label TEXT] K SIZE FILE' import "${list[@]}"
done
try 'K that is no number' 2 'K is no number from 0 to 4294967295' import log 5x 100 - < "$dir/log"
try 'an empty K' 2 'K is no number from 0 to 4294967295' import log '' 100 - < "$dir/log"
try 'K with a sign' 2 'K is no number from 0 to 4294967295' import log -1 100 - < "$dir/log"
try 'K of 2^32 + 1' 2 'K is no number from 0 to 4294967295' import log 4294967297 100 - < "$dir/log"
try 'a size that is no number' 2 'the payload size is no number from 0 to 65535' import log 1 x - < "$dir/log"
try 'a size over 65535' 2 'the payload size is no number from 0 to 65535' import log 1 65536 - < "$dir/log"

finish
