# What the scripts of this folder share: each sources this file.

# Prints the comment at the head of the script.
print_help() {
    awk 'NR > 1 && !/^#/ { exit } NR > 1 { sub(/^# ?/, ""); print }' "$0"
}

# Ends the script, for arguments that it doesn't know.
refuse() {
    echo "bench/$(basename "$0"): $1; --help says what there is" >&2
    exit 2
}

# Ends the script with status 0, for a reason for which nothing was measured: it says so, also to the file that SKIPPED names.
skip() {
    echo "bench/$(basename "$0"): left out: $1"
    [[ -z ${SKIPPED:-} ]] || echo "bench/$(basename "$0"): $1" >>"$SKIPPED"
    exit 0
}

# Proves crates/rdm_bench and what it depends on, where that isn't done yet, and builds the static library. A line on
# standard error for each function that is proved; where something fails, the end of the log.
build_library() {
    local log=$1
    echo "proving and building crates/rdm_bench: some five minutes the first time" >&2
    if ! (cd "$crate" && rt lib) 2>&1 | tee "$log" | sed -un '/^checked /p' >&2; then
        tail -n 40 "$log" >&2
        exit 1
    fi
}

# The C compiler: that of CC, or gcc, or clang.
find_compiler() {
    compiler=${CC:-$(command -v gcc || command -v clang || true)}
    if [[ -z $compiler ]]; then
        echo "bench/$(basename "$0"): neither gcc nor clang is there, and CC names no other compiler" >&2
        exit 1
    fi
}

# The C functions that a static library calls: they lie beside the page that rt doc names.
c_archive() {
    printf '%s/c/liblibc_c.a\n' "$(dirname "$(rt doc)")"
}

# Builds $made/driver, which hears the rows of a file of frames in-process, over the library of crates/rdm_bench, or over the one
# that LIBRARY names, already built.
build_driver() {
    [[ -n ${LIBRARY:-} ]] || build_library "$made/lib.log"
    "$compiler" -std=c11 -D_POSIX_C_SOURCE=200809L -O3 -Wall -Wextra \
        -Wl,--wrap=malloc,--wrap=calloc,--wrap=realloc \
        "$bench/driver.c" "${LIBRARY:-$crate/out/librdm_bench.a}" "$(c_archive)" -o "$made/driver"
}

# How many instructions a program executes, with these arguments.
instructions_of() {
    valgrind --tool=callgrind --callgrind-out-file=/dev/null "$@" 2>&1 >/dev/null | sed -n 's/.*Collected : //p'
}

# How many instructions a request of a row of $made/driver takes: of few rounds, of many, and by how many a round is divided.
row_instructions() {
    local frames=$1 row=$2 few=$3 many=$4 divisor=$5 rounds
    # The instructions before the first round are in both runs, and drop out.
    rounds=$(((many - few) * divisor))
    echo $((($(instructions_of "$made/driver" "$frames" "$row" "$many") - $(instructions_of "$made/driver" "$frames" "$row" "$few") + rounds / 2) / rounds))
}

# Compares what was measured with a file of figures: in both a line has a name, a tab and a figure. It fails if one is 2 % and so many more
# or less than the file says, or if a line is in only one of the two.
#
#   compare_figures FILE MEASURED [SO_MANY]
compare_figures() {
    awk -F '\t' -v script="bench/$(basename "$0")" -v file="bench/$(basename "$1")" -v slack="${3:-0}" '
        function complain(text) { print script ": " text >"/dev/stderr"; failed = 1 }
        NR == FNR { said[$1] = $2; next }
        !($1 in said) { complain(file " has no line for \"" $1 "\", which takes " $2); next }
        {
            difference = $2 > said[$1] ? $2 - said[$1] : said[$1] - $2
            if (50 * (difference - slack) > said[$1]) complain("\"" $1 "\" takes " $2 ", and " file " says " said[$1])
            delete said[$1]
            rows++
        }
        END {
            for (name in said) complain(file " has \"" name "\", which nothing measures")
            if (!failed) print script ": " rows " figures are those of " file
            exit failed
        }
    ' "$1" "$2"
}
