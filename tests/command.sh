#!/usr/bin/env bash
# Runs ./krakobran with each of its words on accepted and refused files, on what is no file and with bad arguments, and compares
# standard output, standard error and the exit status with what is expected; runs every command of its text as printed; and
# compares the man page with the text. A line for each case; status 1 if one fails.
. "$(dirname -- "${BASH_SOURCE[0]}")/lib.sh" || exit 2

# Files: a damaged one, two links and one on which nothing arrived.
head -c 75 "$example" > "$dir/damaged"
sample 'cable & <duct>' 3 1 10 3 20 2 30 > "$dir/cable"
sample 'radio' 6 2 10 1 20 4 30 3 40 5 50 6 60 > "$dir/radio"
sample 'quiet' 1 > "$dir/quiet"
damage="this is no sample file: $(words 1)"

# The text, its parts and the man page.
"$root/tools/man.sh" < "$root/docs/krakobran.txt" > "$dir/page"
same 'the man page is that of the text' "$root/docs/krakobran.1" "$dir/page"
cp "$root/docs/krakobran.txt" "$dir/expected"
try 'help' 0 '' help
try '--help' 0 '' --help
try '-h' 0 '' -h
printf '    help [WORD]\n        Prints this text, or its part on a command.\n        $ krakobran help\n        $ krakobran help import\n\n' > "$dir/expected"
try 'help on a word' 0 '' help help
try '--help after a word' 0 '' help --help
try '--help before a word' 0 '' --help help
for word in report summary import export check worse picture follow help; do
    "$krakobran" help "$word" > "$dir/expected"
    try "$word --help" 0 '' "$word" --help
    try "$word --help after its arguments" 0 '' "$word" x --help
done
printf 'krakobran %s\n' "$version" > "$dir/expected"
try '--version' 0 '' --version
for word in report summary import export check worse picture follow help; do try "$word --version" 0 '' "$word" --version; done
: > "$dir/expected"
try 'a summary with two options' 2 'usage: krakobran summary [--json|--all] FILE' summary --json --all "$example"
try 'an option that there is not' 2 'there is no option --xml; see krakobran help' report --xml "$example"
try 'a report with two options' 2 'usage: krakobran report [--csv|--json] [FILE]' report --csv --json "$example"
try 'a word after -- that is none' 2 'there is no command --help; see krakobran help' -- --help
try 'help on no word' 2 'there is no command pictures; see krakobran help' help pictures

# The report.
cp "$example_report" "$dir/expected"
try 'a report' 0 '' report "$example"
try 'a report of standard input' 0 '' report - < "$example"
try 'a report without a file' 0 'no file is named; this is the report of an example' report
cp "$example" "$dir/--help"
cp "$example" "$dir/-a file; of 'two' words"
cd "$dir" || exit 2
try 'a file with the name of an option' 0 '' report -- --help
try '-- before the word' 0 '' -- report "$example"
try '-- before the word and after it' 0 '' -- report -- --help
try 'a file with spaces in its name' 0 '' report "-a file; of 'two' words"
cd "$root" || exit 2
printf 'refused 1\n' > "$dir/expected"
try 'no report' 1 "damaged: $damage" report "$dir/damaged"
try 'no report of standard input' 1 "standard input: $damage" report - < "$dir/damaged"

# Import and export.
example_log > "$dir/log"
cp "$example" "$dir/expected"
try 'an imported log' 0 '' import log 5 100 "$dir/log"
try 'an imported log on standard input' 0 '' import log 5 100 - < "$dir/log"
cp "$dir/log" "$dir/expected"
try 'an exported log' 0 '' export log "$example"
try 'an exported log of standard input' 0 '' export log - < "$example"
sample '' 3 3 1500000 > "$dir/one"
printf '\0\0\0\2\0\1\0\1\0\0\0\0\0\0\0\0\0\0\0\2\200\0\0\0\377' > "$dir/expected"
try 'an exported record' 0 '' export owamp "$dir/one"
cp "$dir/expected" "$dir/records"
sample '' 3 3 0 > "$dir/expected"
try 'an imported record' 0 '' import owamp 3 100 "$dir/records"
: > "$dir/expected"
try 'an exported log of no arrivals' 0 '' export log "$dir/quiet"
try 'exported records of no arrivals' 0 '' export owamp "$dir/quiet"
try 'a refused log' 1 "log: line 4: $(words 6)" import log 4 100 "$dir/log"
try 'records of another length' 1 "log: $(words 15)" import owamp 4 100 "$dir/log"
try 'K that is no number' 2 'K is no number from 0 to 4294967295' import log x 100 "$dir/log"
try 'no exported log' 1 "damaged: $damage" export log "$dir/damaged"
try 'no exported records' 1 "damaged: $damage" export owamp "$dir/damaged"
sample '' 1 1 4294967295000000 > "$dir/late"
try 'records of a late time' 1 "late: $(words 18)" export owamp "$dir/late"

# The worse of two: 1/3 and 2/6 are equal, though their first samples differ.
printf '%s (cable & <duct>) is worse: 1/3 = 33.33 %%; %s (quiet): no ratio, as nothing arrived, which counts as 0\n' "$dir/cable" "$dir/quiet" > "$dir/expected"
try 'the first is worse' 0 '' worse "$dir/cable" "$dir/quiet"
try 'the second is worse, by the same line' 0 '' worse "$dir/quiet" "$dir/cable"
printf '%s is worse: 1/5 = 20.00 %%; %s (quiet): no ratio, as nothing arrived, which counts as 0\n' "$example" "$dir/quiet" > "$dir/expected"
try 'the first is worse, without a label' 0 '' worse "$example" "$dir/quiet"
printf '%s (radio) is worse: 2/6 = 33.33 %%; %s: 1/5 = 20.00 %%\n' "$dir/radio" "$example" > "$dir/expected"
try 'the second is worse' 0 '' worse "$example" "$dir/radio"
printf 'standard input (radio) is worse: 2/6 = 33.33 %%; %s: 1/5 = 20.00 %%\n' "$example" > "$dir/expected"
try 'the second is worse, on standard input' 0 '' worse "$example" - < "$dir/radio"
printf 'the ratios are equal: %s (cable & <duct>): 1/3 = 33.33 %%; %s (radio): 2/6 = 33.33 %%\n' "$dir/cable" "$dir/radio" > "$dir/expected"
try 'equal ratios' 0 '' worse "$dir/cable" "$dir/radio"
sample 'straight' 1 1 10 > "$dir/straight"
printf 'the ratios are equal: %s (quiet): no ratio, as nothing arrived, which counts as 0; %s (straight): 0/1 = 0.00 %%\n' "$dir/quiet" "$dir/straight" > "$dir/expected"
try 'no ratio, and one of 0' 0 '' worse "$dir/quiet" "$dir/straight"
# Rounded: 1/3 and 2/3 to the nearest, and 1/32 = 3.125 % half up.
sample 'two of three' 3 3 10 2 20 1 30 > "$dir/two"
sample 'one of 32' 32 2 10 1 20 $(for n in {3..32}; do echo "$n $((n * 10))"; done) > "$dir/one"
printf '%s (two of three) is worse: 2/3 = 66.67 %%; %s (one of 32): 1/32 = 3.13 %%\n' "$dir/two" "$dir/one" > "$dir/expected"
try 'rounded ratios' 0 '' worse "$dir/one" "$dir/two"
cd "$dir" || exit 2
cp cable 'refused 1: x'
printf 'the ratios are equal: refused 1: x (cable & <duct>): 1/3 = 33.33 %%; cable (cable & <duct>): 1/3 = 33.33 %%\n' > "$dir/expected"
try 'a file with the name of a refusal' 0 '' worse 'refused 1: x' cable
cd "$root" || exit 2
: > "$dir/expected"
try 'a damaged first sample' 1 "damaged: $damage" worse "$dir/damaged" "$dir/cable"
try 'a damaged second sample' 1 "damaged: $damage" worse "$dir/cable" "$dir/damaged"

# The summary.
cp "$root/crates/cmd_summary/stdout" "$dir/expected"
try 'a summary' 0 '' summary "$root/crates/cmd_summary/stdin"
try 'a summary of standard input' 0 '' summary - < "$root/crates/cmd_summary/stdin"
# A waiting time that fills its column stands apart from the share.
printf '%s\n' '     50 %        0.000' '     90 % 123456789.000' '     95 % 123456789.000' '     99 % 123456789.000' \
    '      all 123456789.000' > "$dir/expected"
"$krakobran" import log 2 100 - < <(printf '2;0\n1;123456789\n') | "$krakobran" summary - | sed -n 's/ ms .*//p' > "$dir/out"
verdict 'a long waiting time' "$(cmp -s "$dir/out" "$dir/expected" || echo ", $(< "$dir/out")")"
sizes() { printf '{"share_percent":%d,"waiting_time_us":%d,"packets_held":%d,"octets_held":%d}' "$@"; }
share() { printf '"%s":{"packets":%d,"of":%d,"percent":%s}' "$@"; }
{
    printf '{"label":"cable & <duct>","sent":3,"arrived":3,"copies":0,"least_sizes":[%s' "$(sizes 50 0 0 0)"
    for percent in 90 95 99 100; do printf ',%s' "$(sizes $percent 10 1 100)"; done
    printf '],"packets_lost":false,"clock_steps_back":false,%s,' "$(share reordered 1 3 33.3)"
    printf '%s,%s,"disorder_pairs":1}\n' "$(share reordered_1 1 3 33.3)" "$(share reordered_3 0 3 0.0)"
} > "$dir/expected"
try 'a summary as JSON' 0 '' summary --json "$dir/cable"
try 'a summary as JSON of standard input, the option last' 0 '' summary - --json < "$dir/cable"
sample 'a "quoted" \ link' 2 > "$dir/none"
{
    printf '{"label":"a \\"quoted\\" \\\\ link","sent":2,"arrived":0,"copies":0,"least_sizes":[%s' "$(sizes 50 0 0 0)"
    for percent in 90 95 99 100; do printf ',%s' "$(sizes $percent 0 0 0)"; done
    printf '],"packets_lost":true,"clock_steps_back":false,%s,' "$(share reordered 0 0 null)"
    printf '%s,%s,"disorder_pairs":0}\n' "$(share reordered_1 0 0 null)" "$(share reordered_3 0 0 null)"
} > "$dir/expected"
try 'a label with quotes, and nothing arrived' 0 '' summary --json "$dir/none"
"$krakobran" summary "$dir/radio" > "$dir/expected"
{
    printf '\nExtents, and how many packets have each:\n    1: 2\n    over 100: 0\n'
    printf '\nn, and how many packets are n-reordered:\n    1: 2\n'
    printf '    %d: 0\n' {2..10}
    printf '\nRecords that have a gap, and the gap in positions:\n    3: 2\n'
    printf '\nRuns in order: 2 ended, the sum of their squares 2, packets in the open one 2\n'
} >> "$dir/expected"
try 'a summary with all figures' 0 '' summary --all "$dir/radio"
: > "$dir/expected"
try 'no summary' 1 "damaged: $damage" summary "$dir/damaged"
try 'no summary as JSON' 1 "damaged: $damage" summary --json "$dir/damaged"
try 'no summary with all figures' 1 "damaged: $damage" summary --all "$dir/damaged"
try 'a picture as JSON' 2 '--json is no option of picture; see krakobran help' picture --json "$example"
try 'a summary as CSV' 2 '--csv is no option of summary; see krakobran help' summary --csv "$example"

# The check of a listing.
sed '6s/late/in/' "$example_report" > "$dir/listing"
printf 'the listing is right\n' > "$dir/expected"
try 'a right listing' 0 '' check "$example" "$example_report"
try 'a right listing on standard input' 0 '' check "$example" - < "$example_report"
printf 'line 6 is wrong\nthe listing has: 5 3 in 5 2 30 200 2\nthe sample gives: 5 3 late 5 2 30 200 2\n' > "$dir/expected"
try 'a wrong listing' 1 '' check "$example" "$dir/listing"
: > "$dir/expected"
try 'check of a missing listing' 1 'missing: there is no such file' check "$example" "$dir/missing"

# The picture, and that of the documents, which README's commands make.
cp "$root/crates/cmd_picture/stdout" "$dir/expected"
try 'a picture' 0 '' picture "$root/crates/cmd_picture/stdin"
try 'a picture of standard input' 0 '' picture - < "$root/crates/cmd_picture/stdin"
cp "$root/docs/picture.svg" "$dir/expected"
"$krakobran" import log 290 100 "$root/examples/supplier.log" > "$dir/link.sample"
try 'the picture of README' 0 '' picture "$dir/link.sample"
: > "$dir/expected"
try 'no picture' 1 "damaged: $damage" picture "$dir/damaged"

# What is no file, and bad usage.
try 'a missing file' 1 'there is no such file' report "$dir/missing"
try 'a directory' 1 'this is a directory' picture "$dir"
try 'a missing second file' 1 'missing: there is no such file' worse "$dir/cable" "$dir/missing"
try 'no word' 2 'usage: krakobran WORD [ARGUMENT..]; see krakobran help'
try 'another word' 2 'there is no command reports; see krakobran help' reports "$dir/cable"
try 'report of two files' 2 'usage: krakobran report [--csv|--json] [FILE]' report "$dir/cable" "$dir/radio"
try 'import without its kind' 2 'usage: krakobran import log|owamp [--bits 8|10] [--label TEXT] K SIZE FILE' import 5 100 "$dir/log"
try 'import of another kind' 2 'usage: krakobran import log|owamp [--bits 8|10] [--label TEXT] K SIZE FILE' import records 5 100 "$dir/log"
try 'import without a file' 2 'usage: krakobran import log|owamp [--bits 8|10] [--label TEXT] K SIZE FILE' import log 5 100
try 'export without its kind' 2 'usage: krakobran export log|owamp FILE' export "$example"
try 'export of another kind' 2 'usage: krakobran export log|owamp FILE' export text "$example"
try 'check of one file' 2 'usage: krakobran check FILE LISTING' check "$example"
try 'worse of one file' 2 'usage: krakobran worse FILE FILE' worse "$dir/cable"
try 'worse of standard input twice' 2 'only one of the two files can be standard input' worse - -
try 'summary of two files' 2 'usage: krakobran summary [--json|--all] FILE' summary "$dir/cable" "$dir/radio"
try 'picture of two files' 2 'usage: krakobran picture FILE' picture "$dir/cable" "$dir/radio"
try 'help on two words' 2 'usage: krakobran help [WORD]' help report import

# Every command of the text, in its order and as printed, in a folder with the files that it names. Each ends with 0 and says
# nothing on standard error. `tail -f` never ends, so `tail` reads the log to its end in its place.
mkdir "$dir/folder"
cp "$root/examples/supplier.log" "$dir/folder/supplier.log"
awk -F ';' '{ print $1 % 256 ";" $2 }' "$root/examples/supplier.log" > "$dir/folder/radio.log"
cp "$dir/radio" "$dir/folder/other.sample"
"$krakobran" import log 290 100 "$root/examples/supplier.log" > "$dir/folder/link.sample"
"$krakobran" export owamp "$dir/folder/link.sample" > "$dir/folder/session.owp"
while IFS= read -r command; do
    wrong=''
    (cd "$dir/folder" && PATH=$root:$PATH && set -o pipefail && eval "$command") > "$dir/out" 2> "$dir/err" || wrong=", status $?"
    [ ! -s "$dir/err" ] || wrong+=", standard error: $(head -c 200 "$dir/err")"
    verdict "$command" "$wrong"
done < <(sed -n 's/^ *\$ //; T; s/^tail -f /tail -n +1 /; p' "$root/docs/krakobran.txt")

# The completion knows the words of the text.
sed -n '/^COMMANDS/,/^OPTIONS/s/^    \([a-z]*\)\( .*\)*$/\1/p' "$root/docs/krakobran.txt" | grep . | xargs > "$dir/expected"
sed -n "s/.*help) list='\(.*\)'.*/\1/p" "$root/tools/completion.bash" > "$dir/out"
same 'the words of the completion for bash' "$dir/out" "$dir/expected"
sed -n 's/^commands=(\(.*\))$/\1/p' "$root/tools/completion.zsh" > "$dir/out"
same 'the words of the completion for zsh' "$dir/out" "$dir/expected"

finish
