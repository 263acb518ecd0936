#!/usr/bin/env bash
# The first use of the command: runs it in checkouts of its own, with an `rt` that only copies the built program and notes that it
# ran, and holds it to what it says, to one build for commands side by side, and to none where none can be.
. "$(dirname -- "${BASH_SOURCE[0]}")/lib.sh" || exit 2

# A checkout in a folder with a space in its name: the script, what it reads, and a source.
checkout="$dir/a checkout"
krakobran=$checkout/krakobran
mkdir -p "$checkout/docs" "$checkout/tools" "$checkout/crates" "$dir/kit"
cp "$root/krakobran" "$root/crates.txt" "$checkout"
cp "$root/docs/krakobran.txt" "$checkout/docs"
cp "$root/tools/program.sh" "$checkout/tools"
for tool in "$root/target/bin"/cmd_*; do mkdir "$checkout/crates/${tool##*/}"; done
cp "$example" "$checkout/crates/cmd_report/stdin"

# The kit: it takes a while, in which another one must not start. It runs in the folder of the program, and keeps its work there.
cat > "$dir/kit/rt" << EOF
#!/usr/bin/env bash
PATH=$PATH
exec 3>&1 >&2
[ -e '$dir/refuse' ] && echo 'rt: the library sample did not build, so nothing above it was checked' && exit 1
mkdir '$dir/busy' 2> '$dir/which' || echo twice >> '$dir/builds'
tool=\${PWD##*/}
echo "\$* \$tool" >> '$dir/builds'
echo 'rt: chose --jobs 2 for octets'
echo 'fn octets::number_at: proved'
echo 'logic=proved functions=1'
sleep 0.5
echo "rt: chose --jobs 2 for \$tool"
mkdir -p out
cp '$root/target/bin/'"\$tool" out
touch out/kept
echo 'logic=proved functions=2 axioms=9'
echo "rt: running out/\$tool"
"out/\$tool" >&3
rmdir '$dir/busy'
EOF
chmod +x "$dir/kit/rt"

# A path without the kit.
bare=$dir/bare
bare "$bare" bash env awk base64 cat cp dirname find flock head mkdir mv readlink sed touch tr
kit=$dir/kit:$bare

# Not built, and no kit.
: > "$dir/expected"
path=$bare
try 'not built, and no kit' 2 'the program is not built, and there is no rt on the path to build it with' report "$example"

# The first run says what it does, and how far it is.
PATH=$kit "$timeout" 60 "$krakobran" report "$example" > "$dir/out" 2> "$dir/err"
found=$?
total=$(sed -n 's/.*building it, \([0-9]*\) crates.*/\1/p' "$dir/err")
{
    echo "krakobran: target/bin/cmd_report is missing or older than its sources: proving and building it, $total crates, takes some minutes"
    echo "krakobran: 1 of $total: octets proved (N s)"
    echo "krakobran: 2 of $total: cmd_report proved (N s)"
} > "$dir/progress"
cp "$example_report" "$dir/expected"
sed 's/([0-9]* s)$/(N s)/' "$dir/err" > "$dir/said"
same 'the first run says how far it is' "$dir/said" "$dir/progress"
: > "$dir/err"
judge 'the first run prints the report' 0 '' "$found"
verdict 'the number of crates' "$([ "${total:-0}" -gt 5 ] || echo ", $total")"
path=$kit
touch -d '+1 minute' "$checkout/crates/cmd_report/out/kept"
try 'the second run builds nothing' 0 '' report "$example"

# A source that is newer: built again with the kit, used as it is without.
touch -d '+1 minute' "$checkout/crates/cmd_report/stdin"
path=$bare
try 'newer sources, and no kit' 0 '' report "$example"
touch -d '-1 minute' "$checkout/target/bin/cmd_report"
touch "$checkout/crates/cmd_report/stdin"
: > "$dir/builds"
PATH=$kit "$krakobran" report "$example" > "$dir/out" 2> "$dir/err"
echo 'run cmd_report' > "$dir/expected"
same 'newer sources are built again' "$dir/builds" "$dir/expected"

# A program that is not proved is not run.
touch -d '-1 minute' "$checkout/target/bin/cmd_report"
touch "$checkout/crates/cmd_report/stdin" "$dir/refuse"
: > "$dir/expected"
PATH=$kit "$timeout" 60 "$krakobran" report "$example" > "$dir/out" 2> "$dir/full"
found=$?
tail -n 1 "$dir/full" > "$dir/err"
judge 'a program that is not proved' 2 'the program was not proved and built' "$found"
verdict 'what the kit says of it' "$(grep -q 'the library sample did not build' "$dir/full" || echo ", $(cat "$dir/full")")"
rm "$dir/refuse"

# Two commands in a pipe, and four of the same program side by side: one build at a time, and one of each program.
rm -r "$checkout/target"
: > "$dir/builds"
example_log > "$dir/log"
{ PATH=$kit "$krakobran" import log 5 100 "$dir/log" | PATH=$kit "$krakobran" report -; } > "$dir/out" 2> "$dir/err"
same 'two commands in a pipe' "$dir/out" "$example_report"
rm -r "$checkout/target"
for i in 1 2 3 4; do PATH=$kit "$krakobran" report "$example" > "$dir/out.$i" 2> "$dir/err.$i" & done
wait
for i in 1 2 3 4; do same "command $i of four" "$dir/out.$i" "$example_report"; done
sort "$dir/builds" > "$dir/out"
printf 'run cmd_import\nrun cmd_report\nrun cmd_report\n' > "$dir/expected"
same 'one build of each program, one at a time' "$dir/out" "$dir/expected"

# The command and make at one moment: one of them waits for the other.
if have make 'the command beside make'; then
    rm -r "$checkout/target"
    : > "$dir/builds"
    mkdir "$checkout/include"
    cp "$root/Makefile" "$checkout"
    cp "$root/include/krakobran.h" "$checkout/include"
    PATH=$dir/kit:$PATH make -s -C "$checkout" target/programs > "$dir/made" 2>&1 &
    PATH=$kit "$krakobran" report "$example" > "$dir/out" 2> "$dir/err"
    wait
    same 'the command beside make' "$dir/out" "$example_report"
    verdict 'make beside the command' "$([ -e "$checkout/target/programs" ] || echo ", $(cat "$dir/made")")"
    verdict 'not both at once' "$(grep -x twice "$dir/builds" | sed 's/^/, /')"
fi

# A checkout that can't be written: a built program runs; one that is to be built is not.
chmod -R a-w "$checkout"
cp "$example_report" "$dir/expected"
path=$kit
try 'a checkout that is only read' 0 '' report "$example"
chmod -R u+w "$checkout"
rm -r "$checkout/target"
: > "$checkout/target"
: > "$dir/expected"
path=$kit
try 'a checkout in which nothing can be built' 2 "target: it can't be written" report "$example"

finish
