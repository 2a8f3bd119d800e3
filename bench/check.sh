#!/bin/sh
# Times `./tutor check` beside `cat` on proofs of growing length, up to one near the limits of 2,000 lines and 262,144
# bytes, for six shapes of proofs (see proof.sh). Prints a row for each: lines, bytes, milliseconds of a run of `cat`
# and of `check`, and the answer. check.sh RUNS takes the mean of that many runs, 20 where none is given.
set -eu
here=$(cd "$(dirname "$0")" && pwd)
tutor=$here/../tutor
runs=${1:-20}
input=$(mktemp)
trap 'rm -f "$input"' EXIT
. "$here/timing.sh"

# rows SHAPE LINES..
rows() {
    shape=$1
    shift
    printf '%s\n%6s %8s %8s %8s  %s\n' "$shape" lines bytes cat check answer
    for lines in "$@"; do
        sh "$here/proof.sh" "$lines" 78 "$shape" > "$input"
        answer=$("$tutor" check < "$input") || true
        printf '%6d %8d %8s %8s  %s\n' "$(grep -c '^[0-9]' "$input")" "$(wc -c < "$input")" \
            "$(milliseconds "$(mean "$input" cat)")" "$(milliseconds "$(mean "$input" "$tutor" check)")" "$answer"
    done
}

"$tutor" > /dev/null || true # builds the program where it isn't there
for shape in blocks terms nested boxed; do
    rows "$shape" 250 502 1000 1999
done
rows cases 700 750 850 1050
rows letters 4 8 16 32
