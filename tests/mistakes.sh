#!/bin/sh
# Mistakes with an arena's bytes and pointers are shown. tests/mistakes.c makes
# them one by one: AddressSanitizer and valgrind tell each, with its line, and say
# nothing of a program without one; where nobody watches, a bad call is refused
# and the program goes on. The editor has none.
#
# Prints a line for each check and at last 'mistakes: N passed, M failed'.
# CC and LIB are make's.
cd "$(dirname "$0")/.."
test=mistakes
. tests/harness/checks.sh

CC=${CC:-gcc}
LIB=${LIB:-build/liblensember.a}
STRICT='-std=c99 -Wall -Wextra -pedantic -Werror'

unset ASAN_OPTIONS VALGRIND_OPTS

# ---- Programs ----------------------------------------------------------------

# How a program is compiled for who watches it, how it is run then, and its status
# when there was something to tell.
flags_for() {
    case $1 in
    asan) echo -fsanitize=address ;;
    valgrind) echo -DLENSEMBER_VALGRIND ;;
    esac
}

command_for() {
    [ "$1" != valgrind ] || echo valgrind -q --error-exitcode=9
}

status_for() {
    case $1 in
    asan) echo 1 ;;
    valgrind) echo 9 ;;
    esac
}

# compile SOURCE WATCHER LEVEL: the program is called as the source, with both behind.
compile() {
    $CC $STRICT -g "-$3" $(flags_for "$2") -Iinclude "$1" "$LIB" \
        -o "$work/$(basename "$1" .c)-$2-$3"
}

# run PROGRAM WATCHER LEVEL [WORD]: what it says is kept; sets status.
run() {
    $(command_for "$2") "$work/$1-$2-$3" ${4:+"$4"} >"$work/printed" 2>"$work/report"
    status=$?
    cat "$work/printed" "$work/report"
}

# ---- What is told --------------------------------------------------------------

# The words of all mistakes, and of one its line or its refusal, which calls have.
words() {
    sed -n 's|.*/\* mistake: \([a-z-]*\).*|\1|p' tests/mistakes.c
}

line_of() {
    grep -n "/\* mistake: $1[ ,]" tests/mistakes.c | cut -d : -f 1
}

refusal_of() {
    sed -n "s|.*/\* mistake: $1, \(refused [56]\) \*/|\1|p" tests/mistakes.c
}

# Each word of the program but none is that of a mistake.
marks_each_word() {
    sed -n 's|.*{"\([a-z-]*\)", .*|\1|p' tests/mistakes.c | sort >"$work/words"
    { echo none && words; } | sort | diff "$work/words" -
}

# The first thing that is told: where the mistake was made, without where the block
# came from or went to. That is up to an empty line, or to what valgrind says of the
# address.
first_stack() {
    sed '/^$/q; /^==[0-9]*==  *Address /q; /^==[0-9]*== *$/q' "$work/report"
}

# The first line of the source in it is that of the mistake.
is_told() {
    run mistakes "$1" "$2" "$3"
    [ "$status" -eq "$(status_for "$1")" ] &&
        [ "$(first_stack | grep -o 'mistakes\.c:[0-9]*' | head -n 1)" = \
            "mistakes.c:$(line_of "$3")" ]
}

is_refused() {
    run mistakes "$1" "$2" "$3"
    [ "$status" -eq 0 ] && [ "$(cat "$work/printed")" = "$(refusal_of "$3")" ]
}

is_silent() {
    run mistakes "$1" "$2" none
    [ "$status" -eq 0 ] && [ ! -s "$work/printed" ] && [ ! -s "$work/report" ]
}

runs_editor() {
    compile examples/editor.c "$1" O2 || return 1
    run editor "$1" O2
    [ "$status" -eq 0 ] && [ ! -s "$work/report" ] && diff tests/editor.out "$work/printed"
}

check words marks_each_word
for level in O0 O2; do
    for watcher in nobody asan valgrind; do
        told=is_told
        [ "$watcher" = nobody ] && told=is_refused
        check "$watcher-$level/compile" compile tests/mistakes.c "$watcher" "$level"
        check "$watcher-$level/none" is_silent "$watcher" "$level"
        for word in $(words); do
            check "$watcher-$level/$word" "$told" "$watcher" "$level" "$word"
        done
    done
done
check asan/editor runs_editor asan
check valgrind/editor runs_editor valgrind

conclude
