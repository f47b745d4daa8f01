# What c/port knows of a processor, from c/port/targets: for scripts that `source` it.
# shellcheck shell=bash disable=SC2034
port=$(dirname "$(realpath "${BASH_SOURCE[0]}")")

# The names of the processors that c/port/make makes the library for: all but ARM64, which has its own build.
target_names() {
    sed -nE 's/^([a-z0-9-]+) \|.*/\1/p' "$port/targets" | grep -vx aarch64
}

# Sets what a line of the file says: triple, words for clang, the firmware's compiler with its words, and the machine of qemu with its
# memory.
use_target() {
    local line
    line=$(grep -E "^$1 \|" "$port/targets") || { echo "c/port: there is no target $1: $(target_names | tr '\n' ' ')" >&2; return 1; }
    IFS='|' read -r _ triple clang_words firmware machine <<<"$line"
    triple=${triple// /}
    read -r machine code data <<<"$machine"
    read -ra clang_words <<<"$clang_words"
    read -ra firmware <<<"$firmware"
}

# Links a program for the processor, as a firmware with input and output by semihosting, on RISC-V by a serial port: link OUTPUT FILE..
link() {
    case $1 in
    cortex-*) link_for_arm "${@:2}" ;;
    rv32*) link_for_riscv "${@:2}" ;;
    *) "${firmware[@]}" "${@:3}" -o "$2" ;;
    esac
}

link_for_arm() {
    "${firmware[@]}" --specs=rdimon.specs -nostartfiles -Wl,--defsym=__code="$code",--defsym=__data="$data" \
        -T "$port/mps2.ld" -Wl,--no-warn-rwx-segments -Wl,--gc-sections \
        "$port/start.c" "${@:2}" "$("${firmware[@]}" -print-file-name=rdimon-crt0.o)" -o "$1"
}

# The memory of the machine `virt`: code from 80000000 on, data 4 MB behind it.
link_for_riscv() {
    "${firmware[@]}" --crt0=semihost --oslib=semihost -Wl,--gc-sections \
        -Wl,--defsym=__flash=0x80000000,--defsym=__flash_size=0x400000,--defsym=__ram=0x80400000,--defsym=__ram_size=0x400000 \
        -Wl,--defsym=__stack_size=0x8000 "$port/serial.c" "${@:2}" -o "$1"
}

# Runs a program on the processor; what is on standard input is the program's. Lines end by a line feed alone. A serial port has no end, so
# the byte 04 ends the input of a RISC-V program; what sends it has none of the program's streams open, which end with the program.
run_program() {
    case $1 in
    cortex-*) run_on qemu-system-arm "$2" -serial none ;;
    rv32*) run_on qemu-system-riscv32 "$2" -bios none -serial stdio < <(exec 2>/dev/null; cat; printf '\004') ;;
    aarch64) qemu-aarch64 "$2" ;;
    *) "$2" ;;
    esac
}

run_on() {
    timeout 600 "$1" -M "$machine" "${@:3}" -nographic -monitor none -semihosting-config enable=on,target=native -kernel "$2" 2>&1 |
        sed -u 's/\r$//'
    return "${PIPESTATUS[0]}"
}
