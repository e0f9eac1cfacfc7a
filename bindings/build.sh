#!/usr/bin/env bash
# Proves and builds the library for programs in C and Python: bindings/out/libwullaphi.a and libwullaphi.so.
# With `--over-proved`, right behind `rt ci`, the crates below `wcp_c` are taken as that has proved and left them, and
# `wcp_c` alone is proved again; where they are not there, all are.
set -eu
cd "$(dirname "$0")/.."
cc=${CC:-cc}
kit=$(dirname "$(dirname "$(readlink -f "$(command -v rt)")")")

# The libraries that a crate names in crates.txt.
uses() {
    sed -n "s/^$1\( [^:]*\)\{0,1\}: *//p" crates.txt
}

# The crates of this repository that a crate stands on.
below() {
    for it in $(uses "$1"); do
        if [ -d "crates/$it" ]; then
            echo "$it"
            below "$it"
        fi
    done | sort -u
}

# Where a library is, as it was built last.
built() {
    if [ -d "crates/$1" ]; then echo "$PWD/crates/$1/out/rlib/$1.rlib"; else echo "$kit/rlibs/$1.rlib"; fi
}

# Whether all crates below are built.
are_built() {
    for it in $(below wcp_c); do [ -e "$(built "$it")" ] || return 1; done
}

# Proves and builds wcp_c over the crates below it as they are.
build_over_proved() {
    local words=(--crate-name wcp_c src/lib.rt --crate-type staticlib --links wcp_c= --jobs "$(nproc)")
    for it in std $(uses wcp_c); do words+=(--extern "$it=$(built "$it")"); done
    for it in $(below wcp_c); do words+=(-L "dependency=$(dirname "$(built "$it")")"); done
    words+=(-L "dependency=$kit/rlibs" --antt-project "$kit/rattle/logic/antt-project.json")
    words+=(--logic-built "$kit/logic_built" --toolchain "$kit/toolchain" --backend llvm -o out/libwcp_c.a)
    (mkdir -p crates/wcp_c/out && cd crates/wcp_c && "$kit/bin/rattle" build "${words[@]}" >&2)
}

if [ "${1:-}" = --over-proved ] && are_built; then build_over_proved; else (cd crates/wcp_c && rt lib >&2); fi
mkdir -p bindings/out
out=$(mktemp -d bindings/out/build.XXXXXX)
trap 'rm -rf "$out"' EXIT
# The heap of the C library, in the form in which the proved code calls it.
(cd "$out" && ar x "$kit/c/liblibc_c.a")
# One object of all, so that only the calls are seen from outside.
ld -r -o "$out/wullaphi.o" --whole-archive crates/wcp_c/out/libwcp_c.a --no-whole-archive "$out"/heap*.o
objcopy --wildcard --keep-global-symbol='wcp_*' "$out/wullaphi.o"
ar rcs "$out/libwullaphi.a" "$out/wullaphi.o"
"$cc" -shared -o "$out/libwullaphi.so" "$out/wullaphi.o" -Wl,-soname,libwullaphi.so.1 \
    -Wl,--version-script=bindings/wullaphi.map
ln -s libwullaphi.so "$out/libwullaphi.so.1"
mv "$out/libwullaphi.a" "$out/libwullaphi.so" "$out/libwullaphi.so.1" bindings/out/
echo "bindings/out/libwullaphi.a bindings/out/libwullaphi.so"
