#!/bin/sh
# Installs the files next to this one below a folder:
#
#     ./install.sh PREFIX [LIBDIR]
#
#     PREFIX/bin/lbk                              the program
#     PREFIX/include/lbk.h, lbk.hpp               the headers for C and C++
#     LIBDIR/liblbk.a, liblbk.so, liblbk.so.0     the library, static and shared
#     LIBDIR/pkgconfig/lbk.pc                     by which pkg-config finds it
#     LIBDIR/cmake/lbk/                           and CMake's find_package
#     PREFIX/share/man/man1/lbk.1                 the program's manual page
#     PREFIX/share/bash-completion/completions/lbk    the completion of its words
#
# LIBDIR is PREFIX/lib by default. Both are the folders in which the files will be used; if DESTDIR is set, it precedes
# them while files are copied. They may have spaces, but no characters that are special to pkg-config or CMake.
#
# Without DESTDIR the code must be for this machine; on x86-64 the processor needs SSE4.2, as most since 2009 have. Then it
# prints the commands that build a program.
set -eu
if [ $# = 0 ] || [ $# -gt 2 ] || [ -z "$1" ]; then
    echo "usage: ./install.sh PREFIX [LIBDIR]" >&2
    exit 2
fi
absolute() {
    case $1 in
    /*) printf '%s\n' "$1" ;;
    *) printf '%s\n' "$PWD/$1" ;;
    esac
}
prefix=$(absolute "$1")
libdir=$(absolute "${2:-$prefix/lib}")
case $prefix$libdir in
*[\"\'\\\$\`\#\;[:cntrl:]]*)
    printf '%s\n' "install.sh: lbk.pc cannot name a folder with \" ' \\ \$ \` # ; a tab or a line end; choose another: \
$prefix $libdir" >&2
    exit 2
    ;;
esac
cd "$(dirname "$0")"
machine=$(cat machine)
if [ -z "${DESTDIR:-}" ] && [ "$(uname -m)" != "$machine" ]; then
    echo "install.sh: this archive is for $machine, and this machine is $(uname -m)" >&2
    exit 1
fi
if [ -z "${DESTDIR:-}" ] && [ "$machine" = x86_64 ] && [ -r /proc/cpuinfo ] && ! grep -q -w sse4_2 /proc/cpuinfo; then
    echo "install.sh: this processor lacks SSE4.2, which the code needs (x86-64-v2)" >&2
    exit 1
fi
to=${DESTDIR:-}$prefix
lib=${DESTDIR:-}$libdir

mkdir -p "$to/include" "$lib/pkgconfig" "$lib/cmake/lbk"
install -m 644 include/lbk.h include/lbk.hpp "$to/include"
install -m 644 lib/liblbk.a "$lib"
for shared in lib/liblbk.so.*; do
    full=${shared#lib/}
    name=${full%.*.*}
    install -m 755 "$shared" "$lib/$full"
    ln -sf "$full" "$lib/$name"
    ln -sf "$name" "$lib/liblbk.so"
done
# (& and | have a meaning to sed)
escaped() { printf '%s\n' "$1" | sed 's/[&|]/\\&/g'; }
filled() { sed -e "s|@PREFIX@|$(escaped "$prefix")|; s|@LIBDIR@|$(escaped "$libdir")|" "$1"; }
filled lib/lbk.pc.in > "$lib/pkgconfig/lbk.pc"
filled lib/lbk-config.cmake.in > "$lib/cmake/lbk/lbk-config.cmake"
cp lib/lbk-config-version.cmake "$lib/cmake/lbk"

if [ -e bin/lbk ]; then
    mkdir -p "$to/bin" "$to/share/man/man1" "$to/share/bash-completion/completions"
    install -m 755 bin/lbk "$to/bin"
    install -m 644 share/lbk.1 "$to/share/man/man1"
    install -m 644 share/lbk.bash "$to/share/bash-completion/completions/lbk"
fi

[ -z "${DESTDIR:-}" ] || exit 0
printf '%s\n' "Installed in $prefix. To build a program, for example examples/breaks.c:" \
    "    cc -I\"$prefix/include\" breaks.c \"$libdir/liblbk.a\" -o breaks" \
    'or by pkg-config, which c.md explains:' \
    "    export PKG_CONFIG_PATH=\"$libdir/pkgconfig\"" \
    "    eval \"cc breaks.c \$(pkg-config --cflags --libs lbk)\" -Wl,-rpath,'\"$libdir\"' -o breaks"
if [ -e bin/lbk ]; then
    printf '%s\n' 'To run the program:' "    printf 'ab cd' | \"$prefix/bin/lbk\" mark"
fi
