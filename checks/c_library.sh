#!/usr/bin/env bash
# Installs the library for C into a fresh folder, builds the examples and packages against it by pkg-config, and runs
# them.
#
#     scripts/check c-library -- TEXT..
#
# The examples have to write the segments that `lbk segment` writes, in both profiles, of short texts, of each TEXT, and of
# the published files of Unicode 15.0 (on Debian the package unicode-data, elsewhere the folder that UNICODE_DATA
# names), which they also compare with the built-in table. It needs cc, python3, binutils and pkg-config. gcc, clang,
# g++, clang++, cmake, rustc and cargo (and another cargo in /usr/bin) are used where they are; what was not there is
# said.
set -u
top=$(cd "$(dirname "${BASH_SOURCE[0]}")/.." && pwd)
ucd=${UNICODE_DATA:-/usr/share/unicode}
here=$(mktemp -d)
trap 'rm -rf "$here"' EXIT
passed=0 failed=0

# report WHAT OK: counts what was tried.
report() {
    if [ "$2" = yes ]; then
        passed=$((passed + 1))
        printf 'ok      %s\n' "$1"
    else
        failed=$((failed + 1))
        printf 'FAILED  %s: %s\n' "$1" "$2"
    fi
}

# tried WHAT WORD..: runs a command, which must end with status 0. If not, its last lines are shown.
tried() {
    local what=$1
    shift
    "$@" > "$here/log" 2>&1
    status=$?
    if [ $status = 0 ]; then
        report "$what" yes
    else
        report "$what" "status $status"
        tail -n 20 "$here/log"
    fi
    return $status
}

left_out() { printf 'left out: %s\n' "$1"; }

end() {
    printf '%s passed, %s failed\n' "$passed" "$failed"
    [ "$failed" = 0 ] && [ "$passed" != 0 ]
    exit
}

has() { command -v "$1" > "$here/found"; }

for word in cc python3 ar ld objcopy objdump nm pkg-config; do
    if ! has $word; then report "$word" 'it is not there'; fi
done
[ "$failed" = 0 ] || end

prefix=$here/prefix
"$top/scripts/prove" lbk lbk_c || { report 'the program and the library are proved' "status $?"; end; }
tried 'install-library' "$top/scripts/install-library" "$prefix" || end
export PKG_CONFIG_PATH=$prefix/lib/pkgconfig LD_LIBRARY_PATH=$prefix/lib PYTHONDONTWRITEBYTECODE=1
folder=$(pkg-config --variable=libdir lbk)
read -ra flags <<< "$(pkg-config --cflags lbk)"
read -ra links <<< "$(pkg-config --libs lbk)"

# Four property files, those of the stored runs where the published ones are not there, and texts that `lbk segment`
# takes.
oracle=()
names=(LineBreak.txt EastAsianWidth.txt extracted/DerivedGeneralCategory.txt emoji/emoji-data.txt)
texts=()
published=
test_lines=
if [ -r "$ucd/LineBreak.txt" ] && head -n 1 "$ucd/LineBreak.txt" | grep -q 'LineBreak-15.0.0'; then
    published=yes
    files=("${names[@]/#/$ucd/}")
    export LBK_DATABASE=$ucd
    for name in NamesList.txt LineBreak.txt auxiliary/LineBreakTest.txt emoji/emoji-data.txt; do
        if [ -r "$ucd/$name" ]; then texts+=("$ucd/$name"); else left_out "$name as a text: it is not in $ucd"; fi
    done
fi
if [ -n "$published" ] && [ -r "$ucd/auxiliary/LineBreakTest.txt" ] && [ -r "$ucd/auxiliary/WordBreakProperty.txt" ] \
    && [ -r "$ucd/auxiliary/WordBreakTest.txt" ]; then
    test_lines=$here/test-lines
    # The lines of the published test as text: each line's scalars, and a line feed.
    python3 - "$ucd/auxiliary/LineBreakTest.txt" > "$here/test-lines" << 'PYTHON'
import sys

for line in open(sys.argv[1], encoding="utf-8"):
    codes = [word for word in line.partition("#")[0].split() if word not in "×÷"]
    sys.stdout.buffer.write(("".join(chr(int(code, 16)) for code in codes) + "\n").encode("utf-8", "replace"))
PYTHON
    texts+=("$test_lines")
    oracle=(random published scalars)
    "$top/checks/word_oracle.py" "$ucd" random 40000 1 "$here/random" > "$here/random-words" \
        || report 'word_oracle, random bytes' "status $?"
    "$top/checks/word_oracle.py" "$ucd" published "$here/published" > "$here/published-words" \
        || report 'word_oracle, the published test' "status $?"
    "$top/checks/word_oracle.py" "$ucd" scalars "$here/scalars" > "$here/scalars-words" \
        || report 'word_oracle, each scalar' "status $?"
elif [ -n "$published" ]; then
    left_out "the published tests of breaks and words, which are not in $ucd/auxiliary: Debian's package unicode-data"
else
    left_out "the published files of Unicode 15.0, as texts and to compare with: Debian's package unicode-data"
    files=("${names[@]##*/}")
    files=("${files[@]/#/$top/crates/lbk/data/}")
fi
printf 'ab, (cd) \xe2\x80\x98ef\xe2\x80\x99\r\n\xe4\xb8\x80\xe4\xb8\x80 1,5 %%\n' > "$here/few"
: > "$here/nothing"
texts+=("$here/few" "$here/nothing" "$@")
for profile in 1 2; do
    for number in "${!texts[@]}"; do
        "$top/crates/lbk/out/lbk" segment --unicode 15.0 --limit 16777216 --profile $profile \
            < "${texts[number]}" > "$here/all" || report "lbk segment of ${texts[number]}" "status $?"
        sed -n '/^S /p' "$here/all" > "$here/wanted-$profile-$number"
        sed -n '/^W /p' "$here/all" > "$here/words-$number"
    done
done

# The code of each function is what the kit's compiler made of what was proved.
code_in() { (mkdir "$2" && cd "$2" && ar x "$1" && for it in *.o; do objdump -s "$it" \
    | awk '/^Contents of section/ { on = $4 ~ /^\.text\./ } on'; done); }
code_in "$top/crates/lbk_c/out/liblbk_c.a" "$here/made" > "$here/code-made"
code_in "$folder/liblbk.a" "$here/linked" > "$here/code-linked"
report 'the code in liblbk.a is that of the proved archive' \
    "$([ -s "$here/code-made" ] && cmp "$here/code-made" "$here/code-linked" && echo yes)"

# The names that the libraries show: those of the header, and in the shared one with the version.
calls=$(sed -n 's/^[a-z].* \**\(lbk_[a-z0-9_]*\)(.*/\1/p' "$prefix/include/lbk.h" | sort)
shown=$(nm -g --defined-only "$folder/liblbk.a" | sed -n 's/.* //p' | grep -v '^lbk\.o:$' | sort)
report 'liblbk.a shows the calls of the header alone' \
    "$([ -n "$calls" ] && [ "$shown" = "$calls" ] && echo yes || echo "it shows $shown")"
shown=$(nm -D --defined-only --with-symbol-versions "$folder/liblbk.so" | sed -n 's/.* T //p' | sort)
version=$(pkg-config --modversion lbk)
report 'liblbk.so shows them with its version' "$([ "$shown" = "$(sed "s/\$/@@LBK_${version%.*}/" <<< "$calls")" ] && echo yes || echo "it shows $shown")"

# compare WHAT WORD..: a program has to write of each text, in each profile, the segments that `lbk segment` wrote.
compare() {
    local what=$1 wrong='' profile number
    shift
    for profile in 1 2; do
        for number in "${!texts[@]}"; do
            if ! "$@" $profile < "${texts[number]}" > "$here/out" 2> "$here/log" \
                || ! cmp -s "$here/out" "$here/wanted-$profile-$number"; then
                wrong="profile $profile of ${texts[number]}: $(diff "$here/wanted-$profile-$number" "$here/out" | sed -n 2p)"
            fi
        done
    done
    report "$what: the segments of ${#texts[@]} texts in both profiles" "${wrong:-yes}"
}

# try_words WHAT PROGRAM: the words that a program writes of each text have to be those of
# `lbk segment`, whatever the block's room; and of random bytes, of the published test and of each
# scalar those that checks/word_oracle.py finds by the rules as they are printed.
try_words() {
    local what=$1 program=$2 wrong='' number room
    if [ ${#oracle[@]} = 0 ]; then
        left_out "$what: the words of texts, which go by the published files (Debian's package unicode-data)"
        return
    fi
    for number in "${!texts[@]}"; do
        for room in 1 3 256; do
            "$program" $room < "${texts[number]}" > "$here/out" 2> "$here/log" \
                && cmp -s "$here/out" "$here/words-$number" \
                || wrong="room $room, ${texts[number]}: $(diff "$here/words-$number" "$here/out" | sed -n 2p)"
        done
    done
    report "$what: the words of ${#texts[@]} texts" "${wrong:-yes}"
    for number in "${oracle[@]}"; do
        "$program" 7 < "$here/$number" > "$here/out" 2> "$here/log" && cmp -s "$here/out" "$here/$number-words"
        status=$?
        report "$what: the words of $number" \
            "$([ $status = 0 ] && echo yes || diff "$here/$number-words" "$here/out" | sed -n 2p)"
    done
}

# count WHAT PROGRAM WORD..: runs a program whose last line has counts.
count() {
    local what=$1
    shift
    tried "$what" "$@" && sed -n '$s/^/        /p' "$here/log"
}

warnings=(-O2 -Wall -Wextra -pedantic -Wshadow -Werror)
checked=(-O1 -g -fsanitize=address,undefined -fno-sanitize-recover=all)
mkdir "$here/built"

# find_checks COMPILER: sets `checks` to the words for the checkers, where they work.
find_checks() {
    checks=()
    printf 'int main(void) { return 0; }\n' > "$here/empty.c"
    if "$1" "${checked[@]}" "$here/empty.c" -o "$here/empty" 2> "$here/log" && "$here/empty"; then
        checks=("${checked[@]}")
    else
        left_out "$1 has no checkers of addresses and undefined behaviour"
    fi
}

# try_c COMPILER: the header in each version of C, and the examples, with the checkers where they work.
try_c() {
    local name version checks
    find_checks "$1"
    for version in c99 c11 c17; do
        tried "$1: lbk.h in $version" "$1" -std=$version "${warnings[@]}" "${flags[@]}" -fsyntax-only \
            -xc "$prefix/include/lbk.h"
    done
    for name in breaks save_table utf16 words; do
        tried "$1: $name.c" "$1" -std=c99 "${warnings[@]}" "${flags[@]}" "$top/examples/$name.c" "${links[@]}" \
            -o "$here/built/$name-$1"
    done
    for name in blocks chunks edges fuzz marks published streams streams_utf16 cuts units; do
        tried "$1: $name.c" "$1" -std=c99 "${warnings[@]}" "${checks[@]}" "${flags[@]}" "$top/examples/$name.c" \
            "${links[@]}" \
            -o "$here/built/$name-$1"
    done
    for name in refused threads; do
        tried "$1: $name.c" "$1" -std=c99 "${warnings[@]}" "${flags[@]}" "$top/checks/c/$name.c" "${links[@]}" \
            -pthread \
            -o "$here/built/$name-$1"
    done
    compare "$1: breaks.c" "$here/built/breaks-$1"
    python3 -c 'import array, sys; sys.stdout.buffer.write(array.array("H", [97, 98, 32, 0xD83D, 0xDE00, 32, 99, 10, 100]))' \
        | "$here/built/utf16-$1" > "$here/out" 2> "$here/log"
    wrong=$(cut -d ' ' -f 1 "$here/out" | tr '\n' ' ')
    report "$1: utf16.c" "$([ "$wrong" = '3 6 8 9 ' ] && echo yes || echo "it wrote $wrong")"
    try_words "$1: words.c" "$here/built/words-$1"
    count "$1: edges.c" "$here/built/edges-$1"
    count "$1: fuzz.c" "$here/built/fuzz-$1" 5000 1 "${files[@]}"
    count "$1: streams.c" "$here/built/streams-$1" 20000 1
    count "$1: streams_utf16.c" "$here/built/streams_utf16-$1" 20000 1
    count "$1: blocks.c" "$here/built/blocks-$1" 20000 1
    count "$1: cuts.c" "$here/built/cuts-$1" 5000 1
    count "$1: units.c" "$here/built/units-$1" 20000 1 ${test_lines:+"$test_lines"}
    count "$1: marks.c" "$here/built/marks-$1" 20000 1 "${texts[@]}"
    count "$1: chunks.c" "$here/built/chunks-$1" 100000 1 "${texts[@]}"
    if [ -n "$published" ]; then count "$1: published.c" "$here/built/published-$1" "${files[@]}"; fi
    count "$1: refused.c, each allocation refused" "$here/built/refused-$1" "${files[@]}"
    count "$1: threads.c" "$here/built/threads-$1"
}

# refuses COMPILER RANGE: the header has to refuse a range over a temporary, in a program that compiles with another.
refuses() {
    local words=(-std=c++17 "${warnings[@]}" "${flags[@]}" -fsyntax-only "$here/temporary.cpp") why=yes
    cat > "$here/temporary.cpp" << CPP
#include <lbk.hpp>
#ifdef FINE
#define RANGE lbk::breaks(table, "a b")
#else
#define RANGE $2
#endif
std::ptrdiff_t count(lbk::table &table)
{
    auto range = RANGE;
    return std::distance(range.begin(), range.end());
}
CPP
    if "$1" "${words[@]}" > "$here/log" 2>&1; then
        why='it compiles'
    elif ! grep -q deleted "$here/log"; then
        why="it is refused for another cause: $(head -n 1 "$here/log")"
    elif ! "$1" "${words[@]}" -DFINE > "$here/log" 2>&1; then
        why="without it the program does not compile: $(head -n 1 "$here/log")"
    fi
    report "$1: $2 does not compile" "$why"
}

try_cpp() {
    local version without name checks
    find_checks "$1"
    for version in c++17 c++20; do
        for without in '' '-fno-exceptions -fno-rtti'; do
            rm -rf "$here/edges"
            mkdir "$here/edges"
            # shellcheck disable=SC2086
            tried "$1: edges.cpp in $version $without" "$1" -std=$version $without "${warnings[@]}" "${checks[@]}" \
                "${flags[@]}" \
                "$top/examples/edges.cpp" "${links[@]}" -pthread -o "$here/built/edges-cpp-$1" \
                && count "$1: edges.cpp in $version $without, run" "$here/built/edges-cpp-$1" "$here/edges" \
                    ${LBK_DATABASE:+"$LBK_DATABASE"}
            # shellcheck disable=SC2086
            tried "$1: passages.cpp in $version $without" "$1" -std=$version $without "${warnings[@]}" "${checks[@]}" \
                "${flags[@]}" \
                "$top/examples/passages.cpp" "${links[@]}" -o "$here/built/passages-cpp-$1" \
                && count "$1: passages.cpp in $version $without, run" "$here/built/passages-cpp-$1" "$here/edges"
        done
        for name in breaks parts; do
            tried "$1: $name.cpp in $version" "$1" -std=$version "${warnings[@]}" "${flags[@]}" \
                "$top/examples/$name.cpp" "${links[@]}" \
                -o "$here/built/$name-cpp-$1"
            compare "$1: $name.cpp in $version" "$here/built/$name-cpp-$1"
        done
    done
    for temporary in 'lbk::breaks(static_cast<const std::string>("a b"))' \
        'lbk::chunks(static_cast<const std::string>("a b"))' \
        'lbk::breaks(lbk::table::load("/"), "a b")' 'lbk::breaks(std::move(table), "a b")' \
        'lbk::breaks(lbk_table(), "a b")' 'lbk::breaks(table, std::string("a b"))' \
        'lbk::breaks(table, static_cast<const std::string>("a b"))' \
        'lbk::segments(table, static_cast<const std::string>("a b"))' \
        'lbk::words(static_cast<const std::string>("a b"))' \
        'lbk::passages(table, static_cast<const std::string>("a b"))' \
        'lbk::chunks(table, static_cast<const std::string>("a b"))' \
        'lbk::breaks_utf16(table, static_cast<const std::u16string>(u"a b"))'; do
        refuses "$1" "$temporary"
    done
    "$1" -std=c++14 "${flags[@]}" -fsyntax-only "$top/examples/breaks.cpp" > "$here/log" 2>&1
    report "$1: lbk.hpp in C++14 says what it needs" \
        "$(grep -q 'error: .*"lbk.hpp needs C++17"' "$here/log" && echo yes || head -n 1 "$here/log")"
}

# The compilers, each once, under whatever names.
seen=' '
for compiler in cc gcc clang; do
    if ! has $compiler; then
        left_out "$compiler is not there"
    elif [[ $seen != *" $(readlink -f "$(cat "$here/found")") "* ]]; then
        seen+="$(readlink -f "$(cat "$here/found")") "
        try_c $compiler
    fi
done
for compiler in g++ clang++; do
    if has $compiler; then try_cpp $compiler; else left_out "$compiler is not there"; fi
done
tried 'cc: breaks.c with liblbk.a' cc -std=c99 "${warnings[@]}" "${flags[@]}" "$top/examples/breaks.c" \
    "$prefix/lib/liblbk.a" \
    -o "$here/built/breaks-static"
compare 'cc: breaks.c with liblbk.a' env -u LD_LIBRARY_PATH "$here/built/breaks-static"
count 'cc: streams.c, a million random cuttings' "$here/built/streams-cc" 1000000 2
count 'cc: blocks.c, a million random texts in blocks of words' "$here/built/blocks-cc" 1000000 2
tried 'cc: units.c with no checkers' cc -std=c99 "${warnings[@]}" "${flags[@]}" "$top/examples/units.c" "${links[@]}" \
    -o "$here/built/units-quick"
count 'cc: units.c, a million random texts in UTF-16 and UTF-32' "$here/built/units-quick" 1000000 2 \
    ${test_lines:+"$test_lines"}

# A table of files that one process saved is mapped by others; for the published files it is the built-in one.
table=$here/table
tried 'save_table.c: a table is saved' "$here/built/save_table-cc" "$table" "${files[@]}"
wrong=''
for number in "${!texts[@]}"; do
    wanted="$(wc -l < "$here/wanted-1-$number") breaks"
    wrote=$("$here/built/save_table-cc" "$table" < "${texts[number]}")
    [ -z "$published" ] || [ "$wrote" = "$wanted" ] || wrong="it wrote $wrote and not $wanted for ${texts[number]}"
    [[ $wrote = *' breaks' ]] || wrong="it wrote $wrote for ${texts[number]}"
done
report 'save_table.c: a mapped table gives breaks' "${wrong:-yes}"
printf 'x' | dd of="$table" bs=1 seek=100000 conv=notrunc status=none
"$here/built/save_table-cc" "$table" < "$here/few" > "$here/log" 2>&1
status=$?
report 'save_table.c: a table that is not whole is refused' "$([ $status = 1 ] && echo yes || echo "status $status")"

# libunibreak's calls
if tried 'packages/unibreak: build' "$top/packages/unibreak/build" "$here/unibreak" \
    && tried 'packages/unibreak: test.c' cc -std=c99 "${warnings[@]}" \
        -I"$here/unibreak/include" "$top/packages/unibreak/test.c" \
        -L"$here/unibreak/lib" -llbk-unibreak -o "$here/built/unibreak"; then
    count 'packages/unibreak: test.c, run' env LD_LIBRARY_PATH="$here/unibreak/lib" "$here/built/unibreak"
fi

# CMake
if has cmake; then
    mkdir "$here/cmake"
    printf 'cmake_minimum_required(VERSION 3.10)\nproject(tried C)\nfind_package(lbk 0.2 REQUIRED)\n' > \
        "$here/cmake/CMakeLists.txt"
    for way in lbk static; do
        printf 'add_executable(breaks-%s "%s")\ntarget_link_libraries(breaks-%s lbk::%s)\n' $way \
            "$top/examples/breaks.c" $way $way \
            >> "$here/cmake/CMakeLists.txt"
    done
    tried 'CMake: find_package' env -u LD_LIBRARY_PATH cmake -S "$here/cmake" -B "$here/cmake/built" \
        -DCMAKE_PREFIX_PATH="$prefix" \
        && tried 'CMake: build' cmake --build "$here/cmake/built"
    for way in lbk static; do
        compare "CMake: breaks.c with lbk::$way" env -u LD_LIBRARY_PATH "$here/cmake/built/breaks-$way"
    done
    if has c++; then
        mkdir "$here/cmake-cpp"
        printf '%s\n' 'cmake_minimum_required(VERSION 3.10)' 'project(tried C CXX)' 'set(CMAKE_CXX_STANDARD 14)' \
            'find_package(lbk 0.2 REQUIRED)' "add_executable(breaks \"$top/examples/breaks.cpp\")" \
            'target_link_libraries(breaks lbk::lbk)' > "$here/cmake-cpp/CMakeLists.txt"
        tried 'CMake: find_package in C++14' env -u LD_LIBRARY_PATH cmake -S "$here/cmake-cpp" \
            -B "$here/cmake-cpp/built" -DCMAKE_PREFIX_PATH="$prefix" \
            && tried 'CMake: build in C++17' cmake --build "$here/cmake-cpp/built"
        compare 'CMake: breaks.cpp with lbk::lbk' env -u LD_LIBRARY_PATH "$here/cmake-cpp/built/breaks"
    fi
else
    left_out 'cmake is not there'
fi

# try_cargo CARGO: the tests and examples of the crate over this library, linked statically, as it does by itself, and to
# liblbk.so.
try_cargo() {
    local way linked name skipped=() crate=(env -C "$top/packages/rust") features=(--features proved,tables)
    [ -n "${LBK_DATABASE:-}" ] || skipped=(--skip all_characters_have_the_class_of_the_file)
    export CARGO_TARGET_DIR=$here/cargo$1
    for way in static shared; do
        linked=(env -u LD_LIBRARY_PATH)
        [ $way = static ] || linked=(env LBK_SHARED=1)
        tried "$1: test, $way" "${crate[@]}" "${linked[@]}" "$1" test --offline --locked "${features[@]}"
        tried "$1: the examples, $way" "${crate[@]}" "${linked[@]}" "$1" build --offline --locked --release --lib \
            --examples "${features[@]}"
        for name in breaks parts; do
            compare "$1: $name.rs, $way" "${linked[@]}" "$CARGO_TARGET_DIR/release/examples/$name"
        done
    done
    tried "$1: packages/linebreak" env -C "$top/packages/linebreak" -u LD_LIBRARY_PATH "$1" test --offline --locked \
        --features proved -- --include-ignored "${skipped[@]}"
}

# Rust
rlib=$here/liblbk.rlib
if has cargo; then
    try_cargo cargo
    rlib=$CARGO_TARGET_DIR/release/liblbk.rlib
    if [ -x /usr/bin/cargo ] && [ "$(readlink -f "$(cat "$here/found")")" != /usr/bin/cargo ]; then
        # (it calls the rustc that the path has first)
        if printf '%s\n' 1.70 "$(/usr/bin/rustc --version | cut -d ' ' -f 2)" | sort -VC; then
            PATH=/usr/bin:$PATH try_cargo /usr/bin/cargo
        else
            left_out 'the rustc in /usr/bin is older than 1.70, which the Rust crate needs with the feature proved'
        fi
    fi
elif has rustc; then
    left_out 'cargo is not there, so the tests of the Rust crate'
    tried 'rustc: the crate' rustc --edition 2021 --crate-type rlib --crate-name lbk --cfg 'feature="std"' \
        --cfg 'feature="proved"' --cfg 'feature="tables"' -O \
        -L "$folder" -l static=lbk "$top/packages/rust/src/lib.rs" -o "$here/liblbk.rlib"
    tried 'rustc: breaks.rs' rustc --edition 2021 -O "$top/examples/breaks.rs" --extern "lbk=$here/liblbk.rlib" \
        -L "$folder" \
        -o "$here/built/breaks-rs"
    compare 'rustc: breaks.rs' "$here/built/breaks-rs"
else
    left_out 'rustc is not there'
fi

# The programs of README.md and of the pages, each with what it prints (checks/page_programs.py). They run without files
# of Unicode.
try_page() {
    local name build run bare=("$top/scripts/without-unicode-data")
    if ! "${bare[@]}" true 2> "$here/log"; then
        left_out 'the programs of the pages without files of Unicode, for which unshare of util-linux makes no namespace here'
        bare=()
    fi
    mkdir "$here/page"
    "$top/checks/page_programs.py" "$here/page" "$top/README.md" \
        "$top"/docs/{library,c,cpp,rust,python,coming-from}.md > "$here/programs"
    tried 'the pages: each program has a name and an output' [ $? = 0 ]
    while read -r name; do
        run=("./$name.out")
        case $name in
        *.c) build=(cc -std=gnu99 "${warnings[@]}" "${flags[@]}" "$name" "${links[@]}" -o "$name.out") ;;
        *.cpp) build=(c++ -std=c++17 "${warnings[@]}" "${flags[@]}" "$name" "${links[@]}" -o "$name.out") ;;
        *.rs) build=(rustc --edition 2021 --extern "lbk=$rlib" -L "$folder" "$name" -o "$name.out") ;;
        *.py) build=(python3 -m py_compile "$name") run=(python3 "$name") ;;
        esac
        if ! has "${build[0]}"; then
            left_out "${build[0]} is not there, so $name of the pages"
        elif [[ $name == *.py && -z ${PYTHONPATH:-} ]]; then
            left_out "the Python package is not there, so $name of the pages"
        else
            tried "the pages: $name is built" env -C "$here/page" "${build[@]}"
            (cd "$here/page" && "${bare[@]}" "${run[@]}") > "$here/out" 2>&1
            tried "the pages: $name prints what is shown" diff "$here/page/$name.wanted" "$here/out"
        fi
    done < "$here/programs"
}

# Python
include=$(python3 -c 'import sysconfig; print(sysconfig.get_path("include"))')
if ! python3 -c 'import setuptools, sys; sys.exit(sys.version_info < (3, 11))' 2> "$here/log" \
    || [ ! -r "$include/Python.h" ]; then
    left_out 'the Python package, which needs Python 3.11 with its headers and setuptools'
    try_page
    end
fi
cp -r "$top/packages/python" "$here/python"
# build_python FOLDER WORD..: builds the package into a folder, with the words for the compiler.
build_python() (cd "$here/python" && CFLAGS=${*:2} LBK_PREFIX=$prefix python3 setup.py -q build -b "$1-build" \
    --build-lib "$1")
test_python() { LBK_LIBRARY=$prefix/lib/liblbk.so UNICODE_DATA=$ucd python3 -m unittest discover \
    -s "$top/packages/python/tests"; }
tried 'the Python package' build_python "$here/python-library" || end
export PYTHONPATH=$here/python-library
tried 'the tests of the Python package' test_python
libraries=("$(cc -print-file-name=libasan.so)" "$(cc -print-file-name=libubsan.so)")
if [ -e "${libraries[0]}" ] && [ -e "${libraries[1]}" ]; then
    tried 'the Python package with the checkers' build_python "$here/python-checked" "${checked[@]}"
    PYTHONPATH=$here/python-checked LD_PRELOAD=${libraries[*]} PYTHONMALLOC=malloc ASAN_OPTIONS=detect_leaks=0 \
        tried 'the tests of the Python package with the checkers' test_python
else
    left_out 'the Python package with the checkers of cc, which it has not'
fi
tried 'texts.py' python3 "$top/examples/texts.py"
compare 'breaks.py' python3 "$top/examples/breaks.py"
count 'engine.py' python3 "$top/examples/engine.py"
try_page
end
