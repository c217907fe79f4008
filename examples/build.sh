#!/bin/sh
# Makes NAME.elf from each NAME.c beside this file, and prints the address of
# its routine. The committed files are of GCC 12.2.0, GNU ld 2.40.
set -eu
cd "$(dirname "$0")"

for source in *.c; do
    set -- -O2
    case $source in
        compare_early.c | compare_whole.c) routine=equal_bytes ;;
        compare_fault.c) routine=equal_words && set -- -O0 ;;
        compare_late.c) routine=compare_bytes && set -- -O2 -gdwarf-4 -ffile-prefix-map="$PWD"=examples ;;
        decode_*) routine=decode_digit ;;
        lookup_*) routine=substitute ;;
        mask_*) routine=mask_word && set -- -O2 '-Wl,--defsym=__global_pointer$=0x30400' ;;
        select_*) routine=select_byte && set -- -O0 ;;
        swap_*) routine=swap_bytes ;;
    esac
    executable=${source%.c}.elf
    riscv64-unknown-elf-gcc -march=rv32im -mabi=ilp32 "$@" -Wall -Wextra \
        -ffreestanding -nostdlib -static \
        -T link.ld -Wl,-e,"$routine" -Wl,-z,max-page-size=4 -Wl,--build-id=none \
        -o "$executable" "$source"
    chmod a-x "$executable"
    echo "$executable: $routine at 0x$(riscv64-unknown-elf-nm "$executable" |
        sed -n "s/ T $routine\$//p")"
done
