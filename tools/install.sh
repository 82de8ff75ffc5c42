#!/usr/bin/env bash
# Puts the C header, the archive, a shared library, a pkg-config file and the licences under a prefix, for programs outside the repository.
#
#     tools/install.sh PREFIX        such as /usr/local or "$HOME/.local"
#
# Needs the archive of `tools/staticlib.sh exports` and a C compiler, which links the shared library. BIVELONDRY_ARCHIVE names another folder that has the
# archive, CC another compiler. DESTDIR is put before PREFIX, for packages. The files may be moved together: the pkg-config file finds them beside itself.
set -euo pipefail

stop() { echo "install: $1" >&2; exit 1; }

[ $# = 1 ] || stop "say where to: tools/install.sh PREFIX, such as /usr/local"
case $1 in
/*) prefix=${1%/} ;;
*) stop "$1 is not an absolute path: say where to from / on, such as $PWD/$1" ;;
esac
repository=$(cd "$(dirname "$0")/.." && pwd)
archive=${BIVELONDRY_ARCHIVE:-$repository/target/staticlib}/libexports.a
[ -e "$archive" ] || stop "$archive is missing: run \`tools/staticlib.sh exports\` in the repository, or set BIVELONDRY_ARCHIVE to the folder that has it"
cc=${CC:-cc}
command -v "${cc%% *}" > /dev/null || stop "$cc is not installed: it links the shared library; install a C compiler, or set CC to one"

number() { sed -n "s/^#define BIV_VERSION_$1 //p" "$repository/include/bivelondry.h"; }
major=$(number MAJOR) minor=$(number MINOR) patch=$(number PATCH)
version=$major.$minor.$patch
# before 1.0 a new minor number may change the calls, as cargo has it
soname=libbivelondry.so.$major
[ "$major" != 0 ] || soname=$soname.$minor

made=$(mktemp -d)
trap 'rm -rf "$made"' EXIT
# -z text and -z defs: code that is not position independent, and names that libc has not, are errors
shared=yes
$cc -shared -Wl,-z,text -Wl,-z,defs -Wl,-soname,"$soname" -Wl,--whole-archive "$archive" -Wl,--no-whole-archive \
    -o "$made/shared" 2> "$made/said" || shared=no

cat > "$made/pc" << END
prefix=\${pcfiledir}/../..
includedir=\${prefix}/include
libdir=\${prefix}/lib
archive=\${libdir}/libbivelondry.a

Name: bivelondry
Description: the echo taps of a booth of flat panels, proved
Version: $version
Cflags: -I\${includedir}
Libs: -L\${libdir} -lbivelondry
END

root=${DESTDIR:-}$prefix
for folder in include lib lib/pkgconfig share/doc/bivelondry; do
    if ! install -d "$root/$folder" || ! [ -w "$root/$folder" ]; then
        stop "$root/$folder cannot be written: choose another PREFIX, or run this as a user who may write there"
    fi
done
install -m 644 "$repository/include/bivelondry.h" "$root/include/bivelondry.h"
install -m 644 "$archive" "$root/lib/libbivelondry.a"
install -m 644 "$made/pc" "$root/lib/pkgconfig/bivelondry.pc"
install -m 644 "$repository/LICENSE" "$repository/NOTICE" "$root/share/doc/bivelondry/"
rm -f "$root/lib/libbivelondry.so" # of an earlier version, which this header may not suit
if [ $shared = yes ]; then
    install -m 755 "$made/shared" "$root/lib/libbivelondry.so.$version"
    ln -sfn "libbivelondry.so.$version" "$root/lib/$soname"
    ln -sfn "$soname" "$root/lib/libbivelondry.so"
    echo "install: Bivelondry $version is in $root. A program that uses $soname finds it with LD_LIBRARY_PATH=$prefix/lib, or after ldconfig where the loader looks into that folder"
else
    cat "$made/said" >&2
    echo "install: Bivelondry $version is in $root, without a shared library: $cc could not link one from $archive. Where it speaks of -fPIC, the objects are not position independent" >&2
fi
