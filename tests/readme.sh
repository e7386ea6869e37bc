#!/bin/sh
# README.md and docs/GUIDE.md say what is so: the programs that they show are
# compiled, each command behind a '$ ' is run from the repository's root, and what
# it prints is held to the lines below it. Only ./test is passed over, which runs
# this.
#
# Prints a line for each command and at last 'readme: N passed, M failed'.
cd "$(dirname "$0")/.."
test=readme
. tests/harness/checks.sh

pages='README.md docs/GUIDE.md'

# A program between ```c and ``` goes to the file that the text before it names.
mkdir -p build
awk '
    match($0, /`build\/[a-z]*\.c`/) { file = substr($0, RSTART + 1, RLENGTH - 2) }
    /^```$/ { inside = 0 }
    inside { print > file }
    /^```c$/ { inside = 1 }' $pages

# Each indented block whose first line is a command: a file for the command, one
# for what it prints. They are numbered through both pages.
awk -v work="$work" '
    FNR == 1 { inside = 0 }
    /^    \$ / { n++; sub(/^    \$ /, ""); print > (work "/" n ".command"); printf "" > (work "/" n ".expected"); inside = 1; next }
    inside && /^    / { sub(/^    /, ""); print > (work "/" n ".expected"); next }
    { inside = 0 }' $pages

# The command prints on standard output what is expected, and ends well.
says_so() {
    sh -c "$(cat "$1.command")" >"$1.printed" && diff "$1.expected" "$1.printed"
}

for command in $(ls "$work" | grep 'command$' | sort -n); do
    line=$(cat "$work/$command")
    [ "$line" = ./test ] || check "$line" says_so "$work/${command%.command}"
done
conclude
