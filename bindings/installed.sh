#!/usr/bin/env bash
# Installs into a folder of its own (tools/install.sh) and builds and runs what C, C++ and Rust callers have against the installed files alone: examples,
# tests and recorded queries, as C99 and C++17, with gcc and clang, by pkg-config, with the shared library, the archive, and wholly static. Compares the
# version wherever it stands with the header's.
# Needs gcc, g++, clang, pkg-config, cargo, and the archive that `tools/staticlib.sh exports` makes. BIVELONDRY_ARCHIVE names another folder that has it.
set -euo pipefail
cd "$(dirname "$0")"

stop() { echo "installed: $1" >&2; exit 1; }

for tool in gcc g++ clang clang++ pkg-config cargo readelf nm; do
    command -v $tool > /dev/null || stop "$tool is not installed"
done
built=$PWD/../target/installed
rm -rf "$built"/{prefix,moved,staged,none} "$built"/*.first
mkdir -p "$built"

echo "-- version"
version=$(sed -n 's/^#define BIV_VERSION "\(.*\)"$/\1/p' ../include/bivelondry.h)
[ -n "$version" ] || stop "include/bivelondry.h has no BIV_VERSION"
same() { [ "$2" = "$version" ] || stop "$1 has version '$2', include/bivelondry.h has '$version': make them agree"; }
locked() { sed -n '/^name = "bivelondry"$/{n;s/^version = "\(.*\)"$/\1/p}' "$1"; }
same bindings/rust/Cargo.toml "$(sed -n 's/^version = "\(.*\)"$/\1/p' rust/Cargo.toml)"
same bindings/rust/Cargo.lock "$(locked rust/Cargo.lock)"
same reference/Cargo.lock "$(locked ../reference/Cargo.lock)"
same crates/booth/src/heading.rt "$(sed -n '/^fn print_version/{n;s/^ *print(rt, b"\(.*\)")$/\1/p}' ../crates/booth/src/heading.rt)"
same docs/CHANGES.md "$(sed -n 's/^This is version \([0-9.]*[0-9]\)\..*/\1/p' ../docs/CHANGES.md)"

echo "-- install"
prefix=$built/prefix
../tools/install.sh "$prefix" > /dev/null
DESTDIR=$built/staged ../tools/install.sh /usr > /dev/null
diff -r "$prefix" "$built/staged/usr" || stop "DESTDIR changes what is installed"
# the files are moved before they are used: nothing may remember where they were
mv "$prefix" "$built/moved"
prefix=$built/moved
export PKG_CONFIG_PATH=$prefix/lib/pkgconfig
same bivelondry.pc "$(pkg-config --modversion bivelondry)"
for file in include/bivelondry.h lib/libbivelondry.a "lib/libbivelondry.so.$version" share/doc/bivelondry/LICENSE share/doc/bivelondry/NOTICE; do
    [ -f "$prefix/$file" ] || stop "$file is not installed"
done
soname=$(readelf -dW "$prefix/lib/libbivelondry.so" | sed -n 's/.*(SONAME).*\[\(.*\)\]/\1/p')
[ "$(readlink -f "$prefix/lib/$soname")" = "$(readlink -f "$prefix/lib/libbivelondry.so.$version")" ] || stop "no link has the soname '$soname'"
# the archive and the shared library give the functions that the header declares, and nothing else
sed -n 's/^[a-z][a-z0-9_ ]* \**\(biv_[a-z_]*\)(.*/\1/p' "$prefix/include/bivelondry.h" > "$built/all.txt"
sed -n 's/^static .*\(biv_[a-z_]*\)(.*/\1/p' "$prefix/include/bivelondry.h" > "$built/inline.txt"
grep -vxFf "$built/inline.txt" "$built/all.txt" | sort > "$built/declared.txt"
nm -D --defined-only "$prefix/lib/libbivelondry.so" | awk '{print $3}' | sort | diff "$built/declared.txt" - || stop "the shared library has not the functions of the header"
nm -g --defined-only "$prefix/lib/libbivelondry.a" | awk 'NF == 3 {print $3}' | sort | diff "$built/declared.txt" - || stop "the archive has not the functions of the header"
if BIVELONDRY_ARCHIVE=$built/none ../tools/install.sh "$built/none" 2> "$built/said.txt" || ! grep -q "tools/staticlib.sh exports" "$built/said.txt" || [ -e "$built/none" ]; then
    stop "an install without the archive must say what to do, and write nothing"
fi

cflags=$(pkg-config --cflags bivelondry)
for compiler in "gcc -std=c99" "clang -std=c99" "g++ -std=c++17 -x c++" "clang++ -std=c++17 -x c++"; do
    for way in shared archive static; do
        case $way in
        shared) libs=$(pkg-config --libs bivelondry) ;;
        archive) libs=$(pkg-config --variable=archive bivelondry) ;;
        static) libs="-static $(pkg-config --static --libs bivelondry)" ;;
        esac
        echo "-- $compiler, $way"
        for name in case_a forecast test replay; do
            # -x none: the libraries are not sources; -lm: test.c takes roots
            $compiler -pedantic -Wall -Wextra -Werror -O2 $cflags "c/$name.c" -x none $libs -lm -o "$built/$name"
            needs=$(readelf -dW "$built/$name" | grep -c "NEEDED.*\[$soname\]" || true)
            [ "$needs" = "$([ $way = shared ] && echo 1 || echo 0)" ] || stop "$name, $way: it is not linked that way"
        done
        export LD_LIBRARY_PATH=
        [ $way != shared ] || LD_LIBRARY_PATH=$prefix/lib
        for name in case_a forecast; do
            "$built/$name" > "$built/$name.txt"
            [ -e "$built/$name.first" ] || cp "$built/$name.txt" "$built/$name.first"
            diff "$built/$name.first" "$built/$name.txt" || stop "$name prints something else than in the first build"
        done
        "$built/test"
        "$built/replay" ../crates/replay/stdin
    done
done
unset LD_LIBRARY_PATH

echo "-- Rust: documentation and lints without an archive, tests with the installed one"
cd rust
export CARGO_TARGET_DIR=$built/rust
BIVELONDRY_ARCHIVE=$built/none cargo doc --offline --no-deps --quiet
if cargo clippy --version > /dev/null 2>&1; then
    BIVELONDRY_ARCHIVE=$built/none cargo clippy --offline --all-targets --quiet -- -D warnings
else
    echo "cargo clippy is not installed: no lints"
fi
if BIVELONDRY_ARCHIVE=$built/none cargo test --offline --quiet --no-run 2> "$built/said.txt" || ! grep -q "run-tools-staticlib.sh-exports" "$built/said.txt"; then
    stop "a test without the archive must not link, and say what to do"
fi
BIVELONDRY_ARCHIVE=$prefix/lib cargo test --offline --quiet | grep "^test result: ok. [1-9]"
BIVELONDRY_ARCHIVE=$prefix/lib cargo run --offline --quiet --example case_a | diff "$built/case_a.first" - || stop "the Rust example prints something else than the C example"

echo "installed: version $version; C99, C++17 and Rust answer as they must"
