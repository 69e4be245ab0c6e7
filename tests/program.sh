#!/usr/bin/env bash
# Runs the built program as a person does, and compares what it writes, what it says and how it ends.
set -u
top=$(cd "$(dirname "${BASH_SOURCE[0]}")/.." && pwd)
folder=$(mktemp -d)
trap 'rm -rf "$folder"' EXIT
passed=0
failed=0

# compare NAME STATUS OUTPUT LINE GOT: the status of the last run, what it wrote, and what it said
compare() {
    if [ "$5" = "$2" ] && [ "$(cat "$folder/out.txt")" = "$3" ] && [ "$(cat "$folder/err.txt")" = "$4" ]; then
        passed=$((passed + 1))
    else
        failed=$((failed + 1))
        echo "$1: status $5 (wanted $2)"
        echo "  written: $(head -c 200 "$folder/out.txt")"
        echo "  said:    $(cat "$folder/err.txt") (wanted $4)"
    fi
}

# expect NAME STATUS OUTPUT LINE WORDS...: the exit status, standard output and standard error of a run
expect() {
    local name=$1 status=$2 output=$3 line=$4
    shift 4
    (cd "$folder" && "$top/usdstage" "$@" >out.txt 2>err.txt </dev/null)
    compare "$name" "$status" "$output" "$line" $?
}

# the program has to be built, since a trial says that it is one
"$top/usdstage" --build || exit 1

printf '#usda 1.0\n' >"$folder/empty.usda"
printf '#usda 1.0\ndef "A" { int x = 007 } # the end' >"$folder/a.usda"
printf '#usda 1.0\nover "A" {}\n' >"$folder/over.usda"
printf '#usda 1.0\ndef "A" {' >"$folder/broken.usda"
printf '#usda 1.0\ndef "B" {}\n' >"$folder/def.usda"
printf '#usda 1.0\ndef "R" (references = @a.usda@</A>) {}\n' >"$folder/reference.usda"
printf '#usda 1.1\n' >"$folder/version.usda"
printf '#usda 1.0\ndef "T' >"$folder/t.usda"
mkdir "$folder/folder.usda"

expect "an empty layer" 0 '#usda 1.0' '' flatten empty.usda
expect "a prim" 0 $'#usda 1.0\n\ndef "A"\n{\n    int x = 7\n}' '' flatten a.usda
page=$("$top/usdstage" help)
expect "no words" 2 '' $'usdstage: not a command\n'"$page"
expect "the page of help" 0 "$page" '' --help
expect "a word behind that for help" 2 '' 'usdstage: not a command' help a.usda
expect "a program that is built already" 0 '' '' --build
case $page in
    *'flatten ROOT'*'session ROOT'*'--build'*'Exit status'*) passed=$((passed + 1)) ;;
    *) failed=$((failed + 1)); echo "the page of help: $page" ;;
esac
expect "another word" 2 '' 'usdstage: not a command' flat a.usda
expect "a word too many" 2 '' 'usdstage: not a command' flatten a.usda a.usda
expect "an option" 2 '' 'usdstage: not a command' flatten --help
expect "a root by another spelling" 0 $'#usda 1.0\n\ndef "A"\n{\n    int x = 7\n}' '' flatten ./a.usda
expect "an option twice" 2 '' 'usdstage: not a command' flatten --session=a.usda a.usda --session a.usda
expect "an option without its layer" 2 '' 'usdstage: not a command' flatten a.usda --session
expect "a session layer" 0 $'#usda 1.0\n\ndef "B"\n{\n}\n\nover "A"\n{\n}' '' flatten --session over.usda def.usda
expect "an absent session layer" 5 '' 'usdstage: none.usda: absent' flatten --session none.usda a.usda
expect "a folder as the root" 3 '' 'usdstage: reading failed' flatten folder.usda
expect "an absent root" 5 '' 'usdstage: none.usda: absent' flatten none.usda
expect "a reference" 0 $'#usda 1.0\n\ndef "R"\n{\n    int x = 7\n}' '' flatten reference.usda
expect "a text that breaks off" 5 '' 'usdstage: broken.usda:2:10: Syntax' flatten broken.usda
expect "a string without its end, in a session" 5 '' 'usdstage: t.usda:2:5: Syntax' session t.usda
expect "another version" 5 '' 'usdstage: version.usda:1:1: BadHeader' session version.usda

printf '#usda 1.0\ndef "A" { int x = 1 }' >"$folder/b.usda"

# session NAME STATUS OUTPUT LINE SCRIPT: a session on b.usda, whose script stands on standard input
session() {
    (cd "$folder" && printf '%b' "$5" | "$top/usdstage" session b.usda >out.txt 2>err.txt)
    compare "$1" "$2" "$3" "$4" $?
}

session "a session" 0 $'published 0: batches 0, prims 1\nbatch 1 accepted\npublished 1: batches 1, prims 1\ndefault /A.x: 2' '' \
    'begin\nset @b.usda@ /A.x 2\ncommit\npublish\ndefault /A.x\n'
session "a refused line" 6 $'published 0: batches 0, prims 1\npublished 1: batches 0, prims 1' 'usdstage: script line 2: BadLine' \
    'publish\nnonsense\npublish\n'
session "no commit" 6 'published 0: batches 0, prims 1' 'usdstage: script line 2: Unfinished' 'begin'

# a person who types sees each answer before the next line
cd "$folder"
coproc typed { "$top/usdstage" session b.usda 2>err.txt; }
cd "$top"
read -r -t 60 first <&"${typed[0]}"
echo 'default /A.x' >&"${typed[1]}"
read -r -t 60 second <&"${typed[0]}"
echo 'publish' >&"${typed[1]}"
read -r -t 60 third <&"${typed[0]}"
eval "exec ${typed[1]}>&-"
wait
if [ "$first" = 'published 0: batches 0, prims 1' ] && [ "$second" = 'default /A.x: 1' ] && [ "$third" = 'published 1: batches 0, prims 1' ]; then
    passed=$((passed + 1))
else
    failed=$((failed + 1))
    echo "lines that are typed: $first; $second; $third"
fi

if [ -w /dev/full ]; then
    said=$(cd "$folder" && "$top/usdstage" flatten a.usda 2>&1 >/dev/full </dev/null)
    if [ $? = 4 ] && [ "$said" = 'usdstage: writing failed' ]; then
        passed=$((passed + 1))
    else
        failed=$((failed + 1))
        echo "a full device: $said"
    fi
fi

echo "$passed passed, $failed failed"
[ "$failed" = 0 ]
