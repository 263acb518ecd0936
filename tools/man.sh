#!/usr/bin/env bash
# tools/man.sh < docs/krakobran.txt > docs/krakobran.1: makes the man page of the text that `krakobran help` prints. A line that begins
# a section has no space before it; one that is followed by lines with more is what these speak of; `$` is before a command.
set -u

awk '
    # a line as roff takes it
    function plain(line) {
        gsub(/\\/, "\\e", line)
        gsub(/-/, "\\-", line)
        sub(/^[.\x27]/, "\\\\\\&&", line)
        return line
    }
    function indent(line) {
        match(line, /^ */)
        return RLENGTH
    }
    # what stands on a line, with the indent of the line after it
    function show(line, next_indent, own) {
        own = indent(line)
        sub(/^ +/, "", line)
        if (line == "") return
        if (own == 0) print ".SH " line
        else if (line ~ /^\$ /) print ".EX\n" plain(line) "\n.EE"
        else if (own == 4 && next_indent > 4) print ".TP\n.B " plain(line)
        else if (section == "SYNOPSIS") print ".B " plain(line) "\n.br"
        else print plain(line)
        if (own == 0) section = line
    }
    BEGIN { print ".TH KRAKOBRAN 1" }
    NR > 1 { show(last, indent($0)) }
    { last = $0 }
    END { show(last, 0) }'
