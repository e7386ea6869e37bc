#!/bin/sh
# What make install puts down is used as C and C++ programmers would use it: found
# by pkg-config and by CMake, compiled and linked as these say, run, read and
# removed.
#
# Prints a line for each check and at last 'install: N passed, M failed'.
# CC, CXX, LIB and PROGRAM are make's.
cd "$(dirname "$0")/.."
test=install
. tests/harness/checks.sh

export CC="${CC:-gcc}" CXX="${CXX:-g++}"
LIB=${LIB:-build/liblensember.a}
PROGRAM=${PROGRAM:-build/replay}
WARNINGS='-Wall -Wextra -pedantic -Wconversion -Werror'
C_STRICT="-std=c99 $WARNINGS"
CXX_STRICT="-std=c++11 $WARNINGS"

# What tools print, and how names are sorted, is the same for everyone.
export LC_ALL=C

prefix=$work/prefix
linked=$work/linked
stage=$work/stage

put() {
    make --no-print-directory LIB="$LIB" PROGRAM="$PROGRAM" "$@"
}

# ---- Files ------------------------------------------------------------------

cat >"$work/expected" <<'FILES'
755 bin/lensember-export
755 bin/lensember-import
755 bin/lensember-map
755 bin/lensember-paint
755 bin/lensember-replay
644 include/lensember.h
644 include/lensember_arena.h
644 lib/cmake/lensember/lensember-config-version.cmake
644 lib/cmake/lensember/lensember-config.cmake
644 lib/liblensember.a
644 lib/pkgconfig/lensember.pc
644 share/man/man1/lensember-export.1
644 share/man/man1/lensember-import.1
644 share/man/man1/lensember-map.1
644 share/man/man1/lensember-paint.1
644 share/man/man1/lensember-replay.1
644 share/man/man3/lensember.3
644 share/man/man3/lensember_arena.3
FILES

# The files below a folder with their modes.
files() {
    (cd "$1" && find . -type f -exec stat -c '%a %n' {} +) | sed 's| \./| |' | sort -k 2
}

has_all_files() {
    files "$1" | diff "$work/expected" -
}

# No file, and no folder of the library's own.
has_nothing() {
    [ -z "$(find "$1" -type f -o -name 'lensember*')" ]
}

is_staged() {
    has_all_files "$stage/usr" && ! grep -r "$stage" "$stage" && [ ! -e "$prefix/usr" ]
}

# ---- pkg-config and CMake ----------------------------------------------------

flags() {
    PKG_CONFIG_PATH=$prefix/lib/pkgconfig pkg-config "$@" lensember
}

names_its_prefix() {
    flags --cflags --libs | grep -e "-I$prefix/include" | grep -e "-L$prefix/lib -llensember"
}

# configure FOLDER PREFIX LANGUAGE [WANTED]
configure() {
    cmake --no-warn-unused-cli -S tests/installed -B "$1" -DCMAKE_PREFIX_PATH="$2" \
        -DLANGUAGE="$3" -DWANTED="${4:-}" \
        -DCMAKE_C_FLAGS="$C_STRICT" -DCMAKE_CXX_FLAGS="$CXX_STRICT"
}

# ---- Versions ----------------------------------------------------------------

defined() {
    sed -n "s/^#define $1 //p" "$prefix/include/lensember.h"
}

header_agrees() {
    [ "$(defined LENSEMBER_VERSION)" = "\"$version\"" ]
}

pkg_config_agrees() {
    [ "$(flags --modversion)" = "$version" ]
}

# finds WANTED: a version, with EXACT behind it or not, or a range.
finds() {
    rm -rf "$work/found"
    configure "$work/found" "$prefix" NONE "$1"
}

cmake_agrees() {
    finds '' | grep -x -e "-- lensember $version"
}

finds_none() {
    ! finds "$1"
}

# ---- A program built each way ------------------------------------------------

# The compiler of a language, with its standard and the warnings.
compiler() {
    case $1 in
    C) echo "$CC -x c $C_STRICT" ;;
    CXX) echo "$CXX -x c++ $CXX_STRICT" ;;
    esac
}

# compile LANGUAGE FILE [FLAG...], into $work/program. Away from the sources, so
# that no header or archive of theirs is found.
compile() {
    strict=$(compiler "$1")
    file=$2
    shift 2
    (cd "$work" && $strict "$@" $(flags --cflags) - -x none $(flags --libs) -o program) <"$file"
}

# header_alone LANGUAGE HEADER [FLAG...]
header_alone() {
    strict=$(compiler "$1")
    header=$2
    shift 2
    echo "#include <$header>" | $strict "$@" $(flags --cflags) -c - -o "$work/alone.o"
}

is_static() {
    readelf -h "$1" | grep 'Type: *EXEC' && readelf -d "$1" | grep 'no dynamic section'
}

# TEXTREL would say that code is changed when it is loaded.
is_pie() {
    readelf -h "$1" | grep 'Type: *DYN' && ! readelf -d "$1" | grep TEXTREL
}

# by_pkg_config LANGUAGE KIND, static or pie
by_pkg_config() {
    case $2 in
    static) how=-static ;;
    pie) how='-fPIE -pie' ;;
    esac
    compile "$1" tests/installed/main.c $how && "is_$2" "$work/program" && "$work/program"
}

# by_cmake LANGUAGE KIND [PREFIX]
by_cmake() {
    from=${3:-$prefix}
    folder=$work/$1-$(basename "$from")
    configure "$folder" "$from" "$1" && cmake --build "$folder" --target "$2" &&
        "is_$2" "$folder/$2" && "$folder/$2"
}

runs_first() {
    compile C examples/first.c && "$work/program"
}

runs_editor() {
    compile C examples/editor.c && "$work/program" >"$work/lines" &&
        diff tests/editor.out "$work/lines"
}

# No data of its own, and nothing of libc but to copy and to fill memory: so calls
# on two pools may run in two threads, and there is little to bring to a handheld.
has_no_state() {
    ! nm "$prefix/lib/liblensember.a" | grep ' [BbCDd] ' &&
        [ "$(nm -u "$prefix/lib/liblensember.a" | awk '/ U / { print $2 }' | sort -u | xargs)" = \
            'memcpy memset' ]
}

# ---- The programs ----------------------------------------------------------------

# The sample log (RULES 12.3); its lines are those that the gate holds the program to.
replays_sample() {
    "$prefix/bin/lensember-replay" <examples/sample.log >"$work/lines" &&
        diff crates/replayer/stdout "$work/lines"
}

replays_nothing() {
    [ "$("$prefix/bin/lensember-replay" </dev/null)" = 'log refused 8 at 0' ]
}

draws_map() {
    "$prefix/bin/lensember-map" <examples/map.log | diff crates/mapper/stdout -
}

paints_picture() {
    "$prefix/bin/lensember-paint" <examples/map.log | diff crates/painter/stdout -
}

# The same log as text (RULES 12.7).
imports_sample() {
    "$prefix/bin/lensember-import" <examples/sample.txt | cmp - examples/sample.log
}

exports_sample() {
    "$prefix/bin/lensember-export" <examples/sample.log | cmp - examples/sample.txt
}

# ---- Man pages -------------------------------------------------------------------

# Formatted without a word of warning.
reads_well() {
    groff -mdoc -ww -Tascii "$prefix/share/man/$1" >"$work/page" 2>"$work/warnings" &&
        [ -s "$work/page" ] && ! grep . "$work/warnings"
}

# The calls of a pool, and those that have no such form.
pool_calls() {
    grep -o 'lensember_[a-z_]*(' "$prefix/include/lensember.h" | tr -d '(' | sort -u >"$work/calls"
    while read -r call; do
        grep -qx "lensember_pool_${call#lensember_}" "$work/calls" || echo "$call"
    done <"$work/calls"
}

# What is declared before it is defined; the other functions are not for callers.
arena_calls() {
    tr '\n' ' ' <"$prefix/include/lensember_arena.h" | sed 's/[;{]/&\n/g' |
        sed -n 's/.*static inline [^(]*\(lensember_[a-z_]*\)(.*;$/\1/p'
}

# names_each PAGE CALL...
names_each() {
    page=$prefix/share/man/man3/$1
    shift
    [ "$#" -gt 0 ] || return 1
    for call in "$@"; do
        grep -w "$call" "$page" || { echo "no $call" && return 1; }
    done
}

check install put PREFIX="$prefix" install
check files has_all_files "$prefix"
check pkg-config names_its_prefix

major=$(defined LENSEMBER_VERSION_MAJOR)
minor=$(defined LENSEMBER_VERSION_MINOR)
version=$major.$minor.$(defined LENSEMBER_VERSION_PATCH)
check version-header header_agrees
check version-pkg-config pkg_config_agrees
check version-cmake cmake_agrees
for wanted in "$major" "$major.0" "$major.$minor" "$version;EXACT" "$major.0...$version"; do
    check "cmake-finds-$wanted" finds "$wanted"
done
for wanted in "$((major + 1))" "$((major - 1))" "$major.$((minor + 1))" \
    "$major.$((minor - 1));EXACT" "$major.0...<$version"; do
    check "cmake-finds-no-$wanted" finds_none "$wanted"
done

watched=-fsanitize=address
if [ -e /usr/include/valgrind/memcheck.h ]; then
    watched="$watched -DLENSEMBER_VALGRIND"
else
    echo 'headers not compiled for valgrind: there is no memcheck.h'
fi
for language in C CXX; do
    for header in lensember.h lensember_arena.h; do
        check "$header-as-$language" header_alone "$language" "$header"
        for flag in $watched; do
            check "$header-as-$language$flag" header_alone "$language" "$header" "$flag"
        done
    done
    for kind in static pie; do
        check "pkg-config-$language-$kind" by_pkg_config "$language" "$kind"
        check "cmake-$language-$kind" by_cmake "$language" "$kind"
    done
done

# As /lib is a link to /usr/lib.
mkdir "$linked"
ln -s "$prefix/lib" "$linked/lib"
check cmake-by-link by_cmake C pie "$linked"

check archive-without-state has_no_state
check example-first runs_first
check example-editor runs_editor
check replay-sample replays_sample
check replay-nothing replays_nothing
check map-sample draws_map
check picture-sample paints_picture
check import-sample imports_sample
check export-sample exports_sample
check man-each-call names_each lensember.3 $(pool_calls)
check man-each-arena-call names_each lensember_arena.3 $(arena_calls)
if command -v groff >/dev/null 2>&1; then
    check man-program reads_well man1/lensember-replay.1
    check man-map reads_well man1/lensember-map.1
    check man-import reads_well man1/lensember-import.1
    check man-library reads_well man3/lensember.3
    check man-arena reads_well man3/lensember_arena.3
else
    echo 'man pages not formatted: there is no groff'
fi
check uninstall put PREFIX="$prefix" uninstall
check nothing-left has_nothing "$prefix"
check install-destdir put PREFIX=/usr DESTDIR="$stage" install
check files-destdir is_staged
check cmake-destdir by_cmake C pie "$stage/usr"
check uninstall-destdir put PREFIX=/usr DESTDIR="$stage" uninstall
check nothing-left-destdir has_nothing "$stage"

conclude
