#!/usr/bin/env bash
# Runs `krakobran report` on the example, on accepted and refused files, and on what is no file, and compares standard
# output, standard error and the exit status with what is expected. A line for each case; status 1 if one fails.
. "$(dirname -- "${BASH_SOURCE[0]}")/lib.sh" || exit 2

# The example's octets: its label count, K, A, and the number and time of its last record are given.
example() {
    two "$1" && two "$2" && printf '\000\144%.0s' {1..5} && two "$3"
    for r in '1 10' '2 20' '4 40' '5 50' "$4 $5"; do
        four "${r% *}" && eight "${r#* }"
    done
}

# The example with a label: its octets are given.
labelled() {
    two "${#1}" && printf '%s' "$1" && example 0 5 5 3 70 | tail -c +3
}

# Packet 2 at 2000, then packet 1 at a time that is given.
stepped() {
    two 0 && two 2 && printf '\000\144%.0s' {1..2} && two 2 && four 2 && eight 2000 && four 1 && eight "$1"
}

# NAME REFUSAL: the file of standard input is refused, with the words of the table of docs/CALLS.md.
refused() {
    cat > "$dir/file"
    printf 'refused %d\n' "$2" > "$dir/expected"
    try "$1" 1 "$(words "$2")" report "$dir/file"
}

# The example, embedded and as a file, and the longest sample.
cp "$example_report" "$dir/expected"
try 'the embedded example' 0 'no file is named; this is the report of an example' report
example 0 5 5 3 70 > "$dir/file"
try 'the example as a file' 0 '' report "$dir/file"
labelled ' ~' > "$dir/file"
try 'the example with a label of 20 and 7E' 0 '' report "$dir/file"
for t in '2000 0' '1999 -1' '1000 -1000'; do
    stepped "${t% *}" > "$dir/file"
    printf 'sent 2 arrivals 2\n1 2 in 1 1\n2 1 late 2 1 %d 100 1\nend 2 1 0 1 1 0\n' "${t#* }" > "$dir/expected"
    try "a late packet of 2000 at ${t% *}" 0 '' report "$dir/file"
done
longest > "$dir/longest"
longest_report > "$dir/expected"
try "the longest sample, of $(wc -c < "$dir/longest") octets" 0 '' report "$dir/longest"

# NAME: $dir/file as CSV and as JSON. Python reads both, and each field is that of the report, or the sample's label or time.
table() {
    local form
    "$krakobran" report "$dir/file" > "$dir/text"
    for form in csv json; do
        "$timeout" 60 "$krakobran" report --$form "$dir/file" > "$dir/out"
        verdict "$1 as $form, read by Python" "$("$root/tests/table.py" $form "$dir/file" "$dir/text" < "$dir/out" 2>&1 | sed 's/^/, /')"
    done
}

# As CSV and as JSON.
example 0 5 5 3 70 > "$dir/file"
cat > "$dir/expected" << 'EOF'
record,number,time_us,kind,position,jump_size,extent,late_us,byte_offset,largest_n,first_copy,sent,arrivals,arrived,reordered,copies,closed_runs,sum_of_squares,open_run
1,1,10,in_order,1,0,,,,,,,,,,,,,
2,2,20,in_order,2,0,,,,,,,,,,,,,
3,4,40,in_order,3,1,,,,,,,,,,,,,
4,5,50,in_order,4,0,,,,,,,,,,,,,
5,3,70,reordered,5,,2,30,200,2,,,,,,,,,
,,,counts,,,,,,,,5,5,5,1,0,1,16,0
EOF
try 'the example as CSV' 0 '' report --csv "$dir/file"
try 'the example as CSV, the option last' 0 '' report "$dir/file" --csv
try 'the example as CSV, of standard input' 0 '' report --csv - < "$dir/file"
try 'the embedded example as CSV' 0 'no file is named; this is the report of an example' report --csv
cp "$dir/file" "$dir/--json"
(cd "$dir" && "$krakobran" report --csv -- --json > out 2> err)
judge 'a file with the name of an option, as CSV' 0 '' "$?"
cat > "$dir/expected" << 'EOF'
{"label":"","records":[
{"record":1,"number":1,"time_us":10,"kind":"in_order","position":1,"jump_size":0},
{"record":2,"number":2,"time_us":20,"kind":"in_order","position":2,"jump_size":0},
{"record":3,"number":4,"time_us":40,"kind":"in_order","position":3,"jump_size":1},
{"record":4,"number":5,"time_us":50,"kind":"in_order","position":4,"jump_size":0},
{"record":5,"number":3,"time_us":70,"kind":"reordered","position":5,"extent":2,"late_us":30,"byte_offset":200,"largest_n":2}
],"counts":{"sent":5,"arrivals":5,"arrived":5,"reordered":1,"copies":0,"closed_runs":1,"sum_of_squares":16,"open_run":0}}
EOF
try 'the example as JSON' 0 '' report --json "$dir/file"
if have python3 'the fields of CSV and JSON'; then
    table 'the example'
    cp "$root/crates/cmd_table/stdin" "$dir/file"
    table 'a label with quotes, a copy and a late time before'
    sample '' 3 > "$dir/file"
    table 'no arrivals'
    sample '"\,\"' 1 1 -1 1 -1 > "$dir/file"
    table 'the greatest time, and a label of quotes and backslashes'
    for n in 255 256 257 4096; do
        awk -v n="$n" 'BEGIN { for (i = n; i > 0; i--) printf "%d;%d\n", i % 7 ? i : 1, n - i }' > "$dir/log"
        "$krakobran" import log --label "$n" "$n" 65535 "$dir/log" > "$dir/file"
        table "$n arrivals"
    done
    cp "$dir/longest" "$dir/file"
    table 'the longest sample'
fi

# Refused files: the example is 76 octets long.
refused 'an empty file' 1 < /dev/null
refused 'one octet short' 1 < <(example 0 5 5 3 70 | head -c 75)
refused 'one octet too many' 2 < <(example 0 5 5 3 70 && printf x)
refused 'label of 65 octets' 3 < <(example 65 5 5 3 70)
refused 'a label octet of 1F' 13 < <(labelled $'ab\x1f')
refused 'a label octet of 7F' 13 < <(labelled $'\x7fab')
refused 'K of 0' 4 < <(example 0 0 5 3 70)
refused 'K of 4097' 4 < <(example 0 4097 5 3 70)
refused 'A of 4097' 5 < <(example 0 5 4097 3 70)
refused 'number K + 1' 6 < <(example 0 5 5 6 70)
refused 'time less by 1001' 7 < <(stepped 999)

# Input longer than any sample.
refused '57415 octets' 2 < <(cat "$dir/longest" && printf x)
refused '1000000 octets' 2 < <(cat "$dir/longest" && head -c 942586 /dev/zero)
refused '57415 octets, those of the label 0' 13 < <(two 64 && head -c 57413 /dev/zero)
refused '1000000 octets of 0' 4 < <(head -c 1000000 /dev/zero)

# As CSV and as JSON nothing is printed of a refused file.
: > "$dir/expected"
example 0 5 5 6 70 > "$dir/file"
for form in csv json; do
    try "number K + 1, as $form" 1 "this is no sample file: $(words 6)" report --$form "$dir/file"
    try "an empty file, as $form" 1 "this is no sample file: $(words 1)" report --$form - < /dev/null
done

# What is no file, and bad usage.
: > "$dir/expected"
try 'a missing file' 1 'there is no such file' report "$dir/missing"
try 'a directory' 1 'this is a directory' report "$dir"
try 'a missing file, as CSV' 1 'there is no such file' report --csv "$dir/missing"
try 'CSV and JSON' 2 'usage: krakobran report [--csv|--json] [FILE]' report --csv --json "$dir/file"
try 'two files as JSON' 2 'usage: krakobran report [--csv|--json] [FILE]' report --json "$dir/file" "$dir/file"
try 'two files' 2 'usage: krakobran report [--csv|--json] [FILE]' report "$dir/file" "$dir/file"

finish
