#!/bin/sh
# run.sh BOARD PROGRAM WORD..: runs a program of tools/cross/board on an emulated board and hands it the words. The microbit, the one
# board with a processor like a Cortex-M0+, gets 4 MB of memory in place of its 16 KB.
board=$1 program=$2
shift 2
words=arg=${program##*/}
for word; do words=$words,arg=$word; done
case $board in microbit) memory='-global nrf51-soc.sram-size=4194304' ;; *) memory= ;; esac
exec qemu-system-arm -M "$board" $memory -nographic -monitor none -serial none -semihosting-config "enable=on,target=native,$words" \
    -kernel "$program"
