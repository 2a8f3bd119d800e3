#!/bin/sh
# Runs the built program as a shell may, and compares what it writes and its status with what was written by hand: the files
# in expected/. Prints a line for each case that differs, and ends with status 1 if one does.
set -u
here=$(cd "$(dirname "$0")" && pwd)
program=$here/../crates/tutor/out/tutor
limit=262144
[ -x "$program" ] || "$here/../tutor" > /dev/null < /dev/null # builds the program
folder=$(mktemp -d)
trap 'chmod -R u+rwx "$folder"; rm -rf "$folder"' EXIT
mkdir "$folder/shelf" && cd "$folder/shelf" || exit 1
: > ../differ

# differs CASE WHAT
differs() {
    echo "run.sh: $1: $2"
    echo "$1" >> ../differ
}

# judge CASE STATUS FILE ENDED: the run ended so, and what it wrote is in ../out and ../err.
judge() {
    [ "$4" -eq "$2" ] || differs "$1" "status $4, wanted $2"
    cmp -s ../out "$3" || differs "$1" "wrote $(head -c 200 ../out), wanted $(head -c 200 "$3")"
    [ ! -s ../err ] || differs "$1" "wrote to standard error: $(head -c 200 ../err)"
}

# ends CASE STATUS FILE WORD..: runs the program with these words; FILE in expected/ has what it must write.
ends() {
    name=$1 status=$2 file=$3
    shift 3
    "$program" "$@" > ../out 2> ../err
    judge "$name" "$status" "$here/expected/$file" $?
}

# no_file CASE NAME: the folder has no text of this name, and the name is said as it was given.
no_file() {
    "$program" world "$2" < /dev/null > ../out 2> ../err
    ended=$?
    printf 'no file %s\n' "$2" > ../wanted
    judge "$1" 3 ../wanted $ended
}

# padded FILE LENGTH: the file, with so many blanks behind it that it has this length.
padded() {
    cat "$1"
    printf "%$(($2 - $(wc -c < "$1")))s" ''
}

cp "$here/board" board
cp board 'two words'
cp board ' board '
cp board '→'

# the examples
while read -r status file example; do
    ends "$example" "$status" "$file" check < "$here/$example.txt"
done << 'LIST'
0 correct swap
0 correct regroup
0 correct de_morgan
0 correct quantifiers
0 correct tautology
1 no_tautology no_tautology
1 ended_subproof ended_subproof
1 self_cite self_cite
1 no_lines no_lines
3 unreadable unreadable
LIST
ends table 0 table table < "$here/table.txt"
ends play 0 play play < "$here/play.txt"
ends world 0 sentences world board < "$here/sentences.txt"
sed "s/\$/$(printf '\r')/" "$here/swap.txt" > ../in
ends 'line ends CR LF' 0 correct check < ../in
(while read -r line; do echo "$line"; sleep 0.01; done < "$here/swap.txt") | ends 'an input that comes in pieces' 0 correct check
(cd "$here/.." && ./tutor check < examples/swap.txt > "$folder/out" 2> "$folder/err")
judge 'the script at the top' 0 "$here/expected/correct" $?

# empty inputs
ends 'check of nothing' 3 header check < /dev/null
ends 'table of nothing' 3 no_sentence table < /dev/null
ends 'play of nothing' 3 header play < /dev/null
ends 'world of nothing' 0 nothing world board < /dev/null

# words that ask for no command: nothing is read, also where the input is closed
long=$(printf '%4000s' '' | tr ' ' n)
ends 'no word' 2 nothing < "$here/swap.txt"
ends 'no word, closed input' 2 nothing <&-
for word in '' ' check' 'check ' Check CHECK checks help -h --help - "$long" "$(printf 'check\n.')"; do
    ends "the word '$word'" 2 nothing "$word" < "$here/swap.txt"
    ends "the words check '$word'" 2 nothing check "$word" < "$here/swap.txt"
done
ends 'a word that is no UTF-8' 2 nothing check "$(printf '\377')" < "$here/swap.txt"
ends 'world without a name' 2 nothing world < /dev/null
ends 'world with an empty name' 2 nothing world '' < /dev/null
ends 'world with an option' 2 nothing world -x < /dev/null
ends 'world with two names' 2 nothing world board board < /dev/null
ends 'a name that is no UTF-8' 2 nothing world "$(printf 'board\377')" < /dev/null

# names
for name in 'two words' ' board ' '→'; do
    ends "the file '$name'" 0 sentences world "$name" < "$here/sentences.txt"
done
mkdir box
ln -s nowhere dangling
ends 'a name that is absent' 3 absent world absent < "$here/sentences.txt"
for name in 'board ' ' board' ' ' . .. ./board /dev/null box/ box dangling Board "$(printf 'two\nlines')"; do
    no_file "the name '$name'" "$name"
done
no_file 'a long name' "$long"

# texts of the limit, and of one byte more: of a file of the folder and of the input
padded board $limit > full
padded board $((limit + 1)) > over
: > empty
printf "%${limit}s" '' > blanks
ends 'a world of the limit' 0 sentences world full < "$here/sentences.txt"
ends 'a world over the limit' 9 nothing world over < "$here/sentences.txt"
ends 'a file of blanks' 3 blanks world blanks < "$here/sentences.txt"
while read -r example file words; do
    padded "$here/$example.txt" $limit > ../in
    # shellcheck disable=SC2086 # the words may be two
    ends "$words, an input of the limit" 0 "$file" $words < ../in
    padded "$here/$example.txt" $((limit + 1)) > ../in
    # shellcheck disable=SC2086
    ends "$words, an input over the limit" 9 nothing $words < ../in
done << 'LIST'
swap correct check
table table table
play play play
sentences sentences world board
LIST

# an input that fails: it is closed, or a folder
for words in check table play 'world board'; do
    # shellcheck disable=SC2086 # the words are two
    ends "$words, closed input" 4 nothing $words <&-
    # shellcheck disable=SC2086
    ends "$words, a folder as input" 4 nothing $words < .
done

# an output that fails: it is closed, or its disk is full; where nothing is to be written, it isn't used
: > ../out
"$program" check < "$here/swap.txt" >&- 2> ../err
judge 'closed output' 5 "$here/expected/nothing" $?
"$program" world absent < /dev/null >&- 2> ../err
judge 'closed output, no file' 5 "$here/expected/nothing" $?
"$program" world board < /dev/null >&- 2> ../err
judge 'closed output, nothing to write' 0 "$here/expected/nothing" $?
if [ -c /dev/full ]; then
    "$program" check < "$here/swap.txt" > /dev/full 2> ../err
    judge 'full disk' 5 "$here/expected/nothing" $?
    "$program" table < "$here/table.txt" > /dev/full 2> ../err
    judge 'full disk, table' 5 "$here/expected/nothing" $?
fi

# a file of the folder that can't be read; root can read the one without leave
cp board locked
chmod 0 locked
[ -r locked ] || ends 'a file without leave' 8 nothing world locked < "$here/sentences.txt"
ln -s loop loop
ends 'a link to itself' 8 nothing world loop < "$here/sentences.txt"
ln -s /proc/self/mem memory
[ ! -e memory ] || ends 'a file whose read fails' 8 nothing world memory < "$here/sentences.txt"

[ ! -s ../differ ]
