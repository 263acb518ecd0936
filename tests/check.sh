#!/usr/bin/env bash
# Runs `krakobran check` on right and wrong listings, on refused samples, and on what is no file, and compares standard output,
# standard error and the exit status with what is expected. A line for each case; status 1 if one fails.
. "$(dirname -- "${BASH_SOURCE[0]}")/lib.sh" || exit 2

# NAME LINE SAMPLE: the listing of standard input is wrong at LINE, or right where that is 0.
listing() {
    cat > "$dir/listing"
    if [ "$2" -eq 0 ]; then
        echo 'the listing is right' > "$dir/expected"
        try "$1" 0 '' check "$3" "$dir/listing"
    else
        {
            echo "line $2 is wrong"
            shown 'the listing has: ' "$2" "$dir/listing"
            "$krakobran" report "$3" > "$dir/right"
            shown 'the sample gives: ' "$2" "$dir/right"
        } > "$dir/expected"
        try "$1" 1 '' check "$3" "$dir/listing"
    fi
}

# WORDS LINE FILE: a line of a file as `check` shows it.
shown() {
    local octets octet ended text='' n=0
    ended=$(tr -cd '\n' < "$3" | wc -c)
    octets=$(sed -n "$2p" "$3" | tr -d '\n' | head -c 121 | od -An -v -tu1)
    for octet in $octets; do
        n=$((n + 1))
        if [ "$n" -gt 120 ]; then
            text+=' ..'
        elif [ "$octet" -lt 32 ] || [ "$octet" -gt 126 ]; then
            text+=$(printf '\\x%02X' "$octet")
        else
            text+=$(printf "\\$(printf %o "$octet")_")
            text=${text%_}
        fi
    done
    if [ "$2" -gt "$ended" ] && [ "$n" -le 120 ]; then
        [ "$n" -eq 0 ] && text='no such line' || text+=' (no line feed)'
    fi
    printf '%s%s\n' "$1" "$text"
}

# NAME REFUSAL: the sample of standard input is refused, with the words of the table of docs/CALLS.md, and the listing is not looked at.
refused() {
    cat > "$dir/file"
    echo "refused $2" > "$dir/expected"
    try "$1" 1 "$(words "$2")" check "$dir/file" "$example_report"
}

longest > "$dir/longest"
longest_report > "$dir/long"

listing 'the listing of the example' 0 "$example" < "$example_report"
listing 'no listing' 1 "$example" < /dev/null
listing 'another number in the first line' 1 "$example" < <(sed '1s/arrivals 5/arrivals 4/' "$example_report")
listing 'another number in the middle' 4 "$example" < <(sed '4s/1$/2/' "$example_report")
listing 'another number in the last line' 7 "$example" < <(sed '7s/0$/1/' "$example_report")
listing 'the first line missing' 1 "$example" < <(tail -n +2 "$example_report")
listing 'a line missing in the middle' 4 "$example" < <(sed 4d "$example_report")
listing 'the last line missing' 7 "$example" < <(head -n 6 "$example_report")
listing 'a line more in the middle' 5 "$example" < <(sed 4p "$example_report")
listing 'a line more at the end' 8 "$example" < <(cat "$example_report" && echo)
listing 'no line feed at the end' 7 "$example" < <(head -c 100 "$example_report")
listing 'CR before every line feed' 1 "$example" < <(sed 's/$/\r/' "$example_report")
listing 'a space at the end of a line' 3 "$example" < <(sed '3s/$/ /' "$example_report")
listing 'a leading zero' 6 "$example" < <(sed '6s/ 30 / 030 /' "$example_report")
listing 'the listing twice over' 8 "$example" < <(cat "$example_report" "$example_report")
listing 'the listing of another sample' 1 "$example" < "$dir/long"
listing 'the line of a refused sample' 1 "$example" < <(echo 'refused 6')
listing 'octets that cannot be printed' 1 "$example" < <(printf 'sent 5\t\0\177\377\033 arrivals 5\n')
listing 'a line of 120 octets' 1 "$example" < <(xs 120 && echo)
listing 'a line of 121 octets' 1 "$example" < <(xs 121 && echo)
listing 'an empty line' 2 "$example" < <(head -n 1 "$example_report" && echo)

# Both lines of a wrong listing, in full.
printf 'line 6 is wrong\nthe listing has: 5 3 late 5 2 31 200 2\\x0D\nthe sample gives: 5 3 late 5 2 30 200 2\n' > "$dir/expected"
sed '6s/ 30 \(.*\)/ 31 \1\r/' "$example_report" > "$dir/listing"
try 'both lines' 1 '' check "$example" "$dir/listing"
printf 'line 7 is wrong\nthe listing has: end 5 1 0 1 16 0 (no line feed)\nthe sample gives: end 5 1 0 1 16 0\n' > "$dir/expected"
head -c 100 "$example_report" > "$dir/listing"
try 'a line feed that is missing' 1 '' check "$example" "$dir/listing"
printf 'line 8 is wrong\nthe listing has: more\nthe sample gives: no such line\n' > "$dir/expected"
try 'a line that the sample does not give' 1 '' check "$example" - < <(cat "$example_report" && echo more)
printf 'line 7 is wrong\nthe listing has: no such line\nthe sample gives: end 5 1 0 1 16 0\n' > "$dir/expected"
try 'a line that the listing does not have' 1 '' check "$example" - < <(head -n 6 "$example_report")

# Long listings: 262,144 octets are the most that one can have.
listing 'the listing of the longest sample' 0 "$dir/longest" < "$dir/long"
listing 'another number before its last line' 4097 "$dir/longest" < <(sed '4097s/1$/2/' "$dir/long")
listing 'an octet after its last line' 4099 "$dir/longest" < <(cat "$dir/long" && printf x)
listing '1000000 octets after its last line' 4099 "$dir/longest" < <(cat "$dir/long" && head -c 1000000 /dev/zero)
listing '1000000 octets in the first line' 1 "$dir/longest" < <(head -c 1000000 /dev/zero)

# Refused samples, with the right listing of the example.
refused 'an empty sample' 1 < /dev/null
refused 'one octet short' 1 < <(head -c 75 "$example")
refused 'one octet too many' 2 < <(cat "$example" && printf x)
refused 'a label octet of 7F' 13 < <(two 1 && printf '\177' && tail -c +3 "$example")
refused 'K of 0' 4 < <(two 0 && two 0 && tail -c +5 "$example")
refused '1000000 octets of 0' 4 < <(head -c 1000000 /dev/zero)

# What is no file, and bad usage.
: > "$dir/expected"
try 'a missing sample' 1 'there is no such file' check "$dir/missing" "$example_report"
try 'a missing listing' 1 'there is no such file' check "$example" "$dir/missing"
try 'a directory' 1 'this is a directory' check "$example" "$dir"
try 'one file' 2 'usage: krakobran check FILE LISTING' check "$example"
try 'three files' 2 'usage: krakobran check FILE LISTING' check "$example" "$example_report" "$example_report"

finish
