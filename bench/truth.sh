#!/bin/sh
# Times `./tutor world` on sentences whose work is close to the limit of 20,000,000 units, in worlds of 64 to 2 blocks,
# beside a loop that counts the same units one by one (a C program; `cc` is needed). Prints a row for each sentence:
# its units of work, the milliseconds of the count and of `world`, the answer, and the sentence. truth.sh RUNS takes the mean
# of that many runs, 5 where none is given.
set -eu
here=$(cd "$(dirname "$0")" && pwd)
tutor=$here/../tutor
runs=${1:-5}
folder=$(mktemp -d)
trap 'rm -rf "$folder"' EXIT
. "$here/timing.sh"

# A world with so many blocks, on the first squares of the board.
blocks() {
    echo "world 1"
    awk -v count="$1" 'BEGIN {
        split("tet cube dodec", shape); split("small medium large", size)
        for (i = 0; i < count; i++)
            print "-", shape[i % 3 + 1], size[int(i / 3) % 3 + 1], i % 8 + 1, int(i / 8) + 1
    }'
}

# So many universal quantifiers, of x1, x2 and so on, over the body.
each() {
    awk -v count="$1" -v body="$2" 'BEGIN {
        for (i = 1; i <= count; i++) printf "@x%d ", i
        print body
    }'
}

# The same part so many times, joined by `&`.
repeated() {
    awk -v count="$1" -v part="$2" 'BEGIN {
        for (i = 1; i <= count; i++) printf "%s%s", (i > 1 ? " & " : "("), part
        print ")"
    }'
}

# The units of work of so many quantifiers over a body of so many units, in a world of so many blocks.
units() {
    awk -v count="$1" -v body="$2" -v blocks="$3" 'BEGIN {
        for (i = 1; i <= count; i++) body = 1 + blocks * body
        printf "%d", body
    }'
}

# row BLOCKS QUANTIFIERS BODY_UNITS SENTENCE
row() {
    printf '%s\n' "$4" > "$folder/sentence"
    work=$(units "$2" "$3" "$1")
    answer=$("$tutor" world "board$1" < "$folder/sentence")
    printf '%6d %9d %8s %8s  %-6s %.70s\n' "$1" "$work" "$(milliseconds "$(mean "$folder/sentence" "$folder/count" "$work")")" \
        "$(milliseconds "$(mean "$folder/sentence" "$tutor" world "board$1")")" "$answer" "$4"
}

cat > "$folder/count.c" <<'END'
#include <stdlib.h>
int main(int count, char **words) {
    for (long left = count > 1 ? atol(words[1]) : 0; left > 0; left--) __asm__ volatile("");
    return 0;
}
END
cc -O2 -o "$folder/count" "$folder/count.c"
"$tutor" > /dev/null || true # builds the program where it isn't there
tutor=$(cd "$(dirname "$tutor")" && pwd)/tutor
for count in 64 23 17 9 8 5 2; do
    blocks "$count" > "$folder/board$count"
done
cd "$folder"
printf '%6s %9s %8s %8s  %-6s %s\n' blocks units count world answer sentence
row 64 4 1 '@x @y @z /u SameCol(z,u)'
row 64 4 1 '@x @y @z /u Adjoins(z,u)'
row 64 3 73 "@x @y @z $(repeated 18 '(Cube(z) | ~Cube(z))')"
row 64 3 76 "@x @y @z $(repeated 25 '(LeftOf(x,z) $ RightOf(z,x))')"
row 64 3 76 "@x @y @z $(repeated 25 '(Between(z,x,y) $ Between(z,y,x))')"
row 23 4 13 "$(each 4 "$(repeated 12 'SameCol(x1,x2)')")"
row 23 4 13 "$(each 4 "$(repeated 12 'Adjoins(x1,x2)')")"
row 17 5 13 "$(each 5 "$(repeated 12 'SameCol(x1,x2)')")"
row 17 5 13 "$(each 5 "$(repeated 12 'Between(x1,x2,x3)')")"
row 9 6 13 "$(each 6 "$(repeated 12 'SameCol(x2,x3)')")"
row 9 6 13 "$(each 6 "$(repeated 12 'Between(x1,x2,x3)')")"
row 8 8 1 "$(each 8 'SameCol(x2,x3)')"
row 8 8 1 "$(each 8 'Between(x1,x2,x3)')"
row 5 8 13 "$(each 8 "$(repeated 12 'Between(x2,x3,x4)')")"
row 2 23 1 "$(each 22 '/x23 SameRow(x22,x23)')"
row 2 23 1 "$(each 23 'SameCol(x1,x2)')"
row 2 23 1 "$(each 23 'SameCol(x2,x3)')"
