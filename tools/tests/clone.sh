# The commands of the READMEs for a clone, in a clean Debian 12 with the packages of tools/byte_unit_dev/products.py,
# without a network and the toolchain of Rattle: for each binding cargo builds the library.
set -eu
cd "$HOME/clone"
echo "[workspace]" > ../Cargo.toml # a clone may be below one

# Prints the commands of the section Install of the README in standard input.
install_of() { awk '/^## / { here = $0 == "## Install" } /^```/ { on = $0 == "```sh"; next } here && on'; }

# Prints the first block of C in the page in standard input.
first_of_c() { awk '$0 == "```c" { on = 1; next } /^```/ && on { exit } on'; }

# Calls a command that has to fail, and to say $1.
fails_with() {
    wanted=$1
    shift
    if said=$("$@" 2>&1); then echo "no error: $*"; exit 1; fi
    case $said in *"$wanted"*) ;; *) echo "$*: $said"; exit 1 ;; esac
}

wrong="the character 'x' is incorrect"

# Checks that a command stops with one line if there is no cargo, or an old rustc alone.
needs_cargo() {
    fails_with "byte_unit: to build the library, install cargo and rustc" env CARGO=/nowhere "$@"
    printf '#!/bin/sh\necho "rustc 1.63.0 (old)"\n' > old
    chmod +x old
    fails_with "byte_unit: to build the library, install cargo and rustc" env RUSTC="$PWD/old" "$@"
    rm old
}

fails_with "to build the library, install cargo and rustc" env CARGO=/nowhere tools/dev install /usr/local
first_of_c < bindings/c/README.md > program.c
eval "$(install_of < bindings/c/README.md)"
./a.out > /dev/null # the last is the example
# The words of pkg-config are several.
# shellcheck disable=SC2046
cc -Wall -Werror -o program program.c $(pkg-config --cflags --libs byte_unit)
test "$(./program)" = "1.5 KiB"
fails_with "$wrong" ./program "1 x"
# What is in /usr/local is found without pkg-config, too.
CARGO=/nowhere PKG_CONFIG_LIBDIR=/nowhere bindings/c/library.sh made
cmp made/libbyte_unit.a /usr/local/lib/libbyte_unit.a
tools/dev install --uninstall /usr/local
ldconfig
fails_with "byte_unit" pkg-config --libs byte_unit

python3 -m venv venv
needs_cargo venv/bin/pip install ./bindings/python
eval "$(install_of < bindings/python/README.md | grep -v '^apt-get ')"
test "$(venv/bin/python -c 'import byte_unit; print(byte_unit.parse("1.5 KiB"))')" = 1536
fails_with "$wrong" venv/bin/python -c 'import byte_unit; byte_unit.parse("1 x")'
venv/bin/pip uninstall --quiet --yes byte_unit
test -z "$(find venv -name '*byte*unit*')"

needs_cargo make -C bindings/sql/sqlite install
eval "$(install_of < bindings/sql/sqlite/README.md)"
by_sqlite() { sqlite3 -cmd ".load /usr/local/lib/sqlite3/byte_unit" :memory: "$1"; }
test "$(by_sqlite "SELECT size_parse('1.5 KiB')")" = 1536
fails_with "$wrong" by_sqlite "SELECT size_parse('1 x')"
make -C bindings/sql/sqlite uninstall
rmdir /usr/local/lib/sqlite3

needs_cargo make -C bindings/sql/postgresql install
eval "$(install_of < bindings/sql/postgresql/README.md)"
server=/usr/lib/postgresql/15/bin data=$(mktemp -d)
chown postgres "$data"
by_postgres() { (cd "$data" && setpriv --reuid=postgres --regid=postgres --clear-groups "$@"); }
by_psql() { by_postgres psql -h "$data" -XAtq -v ON_ERROR_STOP=1 -c "$1"; }
by_postgres "$server/initdb" --no-sync -D "$data/data" > log
by_postgres "$server/pg_ctl" -w -D "$data/data" -l "$data/log" -o "-c listen_addresses= -k $data" start > log
by_psql "CREATE EXTENSION byte_unit"
test "$(by_psql "SELECT '1.5 KiB'::bytesize + '512 B'")" = "2 KiB"
fails_with "The character 'x' is incorrect" by_psql "SELECT '1 x'::bytesize"
by_postgres "$server/pg_ctl" -m immediate -D "$data/data" stop > log
make -C bindings/sql/postgresql uninstall
cd /root
rm -r clone "$data"
rm -rf .cargo
test -z "$(find / -xdev -name '*byte?unit*' -not -path '/proc/*')"
