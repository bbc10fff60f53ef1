#!/bin/sh
# asm_elf.sh SOURCE.s OUT.elf [ADDRESS]: an ELF with the labels and lines of a source, for gdb alone. GNU as has to take
# the source, and its bytes are those that `dsmon list` shows.
set -e
t=$(mktemp -d)
trap 'rm -rf "$t"' EXIT
printf '.set noreorder\n.set nomacro\n.set noat\n.text\n.globl _start\n_start:\n.include "%s"\n' "$(realpath "$1")" > "$t/a.s"
printf 'ENTRY(_start)\nSECTIONS { . = %s; .text : { *(.text) } /DISCARD/ : { *(.MIPS.abiflags .reginfo .pdr .gnu.attributes) } }\n' "${3:-0x400000}" > "$t/a.ld"
mipsel-linux-gnu-as --gdwarf-4 -march=r3000 -mabi=32 -o "$t/a.o" "$t/a.s"
mipsel-linux-gnu-ld -T "$t/a.ld" -o "$2" "$t/a.o"
