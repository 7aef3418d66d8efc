# shellcheck shell=bash
# Sourced by what links the library or runs the programs: rt makes all of them for x86-64. There they are taken as they are.
# On another processor, where the kernel has to run the kit's own tools for x86-64, it runs these programs too; a C program
# is compiled by the kit's compiler, and other programs reach the library over a pair of pipes (near.c, far.c).
kit=$(dirname "$(rt doc)")
machine=$(uname -m)
archive=crates/desk_c/out/libdesk_c.a
link=target/link
warnings=(-Wall -Wextra -Werror -Iinclude)

# proves the library and makes the archive
library() { (cd crates/desk_c && rt lib); }

# compiles and links C for x86-64
build_c() { # PROGRAM FILE...
    local program=$PWD/$1 file object objects=()
    shift
    if [ "$machine" = x86_64 ]; then
        cc -std=c11 -O2 "${warnings[@]}" -o "$program" "$@" "$archive"
        return
    fi
    for file in "$@"; do
        object=$program.$(basename "$file").o
        "$kit/toolchain/bin/clang" --target=x86_64-unknown-linux-gnu -std=c11 -O2 -fPIC "${warnings[@]}" \
            -isystem "$(cc -print-file-name=include)" -isystem "/usr/include/$(cc -print-multiarch)" -isystem /usr/include \
            -c -o "$object" "$file" || return
        objects+=("$object")
    done
    "$kit/bin/rattle-link" --target x86_64-unknown-linux-gnu --toolchain "$kit/toolchain" -o "$program" \
        "${objects[@]}" "$archive"
}

# makes target/link/libdesk_c.a, for programs of this machine
build_link() {
    mkdir -p "$link" || return
    if [ "$machine" = x86_64 ]; then cp "$archive" "$link/"; return; fi
    build_c "$link/far" tests/bridge/far.c || return
    cc -std=gnu11 -O2 "${warnings[@]}" -DFAR_COMMAND="\"exec $(printf %q "$PWD/$link/far")\"" \
        -c -o "$link/near.o" tests/bridge/near.c || return
    rm -f "$link/libdesk_c.a"
    ar rcs "$link/libdesk_c.a" "$link/near.o"
}

# builds or tests the second program
second() { # COMMAND WORDS...
    local here=$PWD
    (cd tests/second && DESK_LIB_DIR=$here/$link CARGO_TARGET_DIR=$here/target/second cargo "$1" --release "${@:2}")
}
