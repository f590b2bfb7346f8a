#!/bin/sh
# Fills a folder with byte_unit.h and libbyte_unit.a, for what is built over them: library.sh [--cargo] FOLDER.
#
# They are those of the first of these that is there: the folder BYTE_UNIT_LIBRARY_DIR, which `tools/make-libraries`
# filled, or a prefix of that name with `include` and `lib`; what `pkg-config byte_unit` names, or what is in /usr/local;
# the archive that `rt lib` made in this repository; the archive that cargo makes here of the rendered Rust, offline.
# With --cargo it is the last. Where there is none, one line says what to install.
set -eu
here=$(cd "$(dirname "$0")" && pwd)
by_cargo_alone=
if [ "$1" = --cargo ]; then
    by_cargo_alone=yes
    shift
fi
folder=$1

stop() {
    echo "byte_unit: $*" >&2
    exit 1
}

# Copies a header and an archive, and ends, if both are there.
take() {
    if [ -f "$1" ] && [ -f "$2" ]; then
        mkdir -p "$folder"
        cp "$1" "$folder/byte_unit.h"
        cp "$2" "$folder/libbyte_unit.a"
        exit
    fi
}

find_made() {
    named=${BYTE_UNIT_LIBRARY_DIR-}
    if [ -n "$named" ]; then
        case $named in /*) ;; *) stop "BYTE_UNIT_LIBRARY_DIR=$named is not an absolute path" ;; esac
        take "$named/byte_unit.h" "$named/libbyte_unit.a"
        take "$named/include/byte_unit.h" "$named/lib/libbyte_unit.a"
        stop "BYTE_UNIT_LIBRARY_DIR=$named has no byte_unit.h and libbyte_unit.a"
    fi
    if pkg-config --exists byte_unit 2> /dev/null; then
        includes=$(pkg-config --variable=includedir byte_unit)
        take "$includes/byte_unit.h" "$(pkg-config --variable=libdir byte_unit)/libbyte_unit.a"
    fi
    take /usr/local/include/byte_unit.h /usr/local/lib/libbyte_unit.a
    take "$here/byte_unit.h" "$here/../../crates/byte_unit_c/out/libbyte_unit_c.a"
}

[ -n "$by_cargo_alone" ] || find_made
oldest=$(sed -n 's/^rust-version = "\(.*\)"$/\1/p' "$here/Cargo.toml")
found=$({ "${RUSTC:-rustc}" --version || true; } 2> /dev/null | cut -d ' ' -f 2)
is_enough() { [ -n "$found" ] && printf '%s\n' "$oldest" "$found" | sort -V -C; }
if ! command -v "${CARGO:-cargo}" > /dev/null || ! is_enough; then
    stop "to build the library, install cargo and rustc $oldest or later (Debian 12: cargo-web and rustc-web);" \
        "or set BYTE_UNIT_LIBRARY_DIR to a folder that \`tools/make-libraries\` filled"
fi
echo "byte_unit: rustc $found builds the library from the rendered Rust" >&2
# For this machine, also if cargo's configuration names another target: the target is in the path of what is built.
host=$("${RUSTC:-rustc}" -vV | sed -n 's/^host: //p')
"${CARGO:-cargo}" build --release --offline --quiet --manifest-path "$here/Cargo.toml" --target-dir "$here/target" \
    --target "$host" >&2
take "$here/byte_unit.h" "$here/target/$host/release/libbyte_unit.a"
stop "cargo made no $here/target/$host/release/libbyte_unit.a"
