#!/bin/sh
# Times one step by Taut Con at its limits: a tautology of 16 letters and 400 nodes, whose truth table is gone through to the
# end. taut.sh RUNS takes the mean of that many runs, 10 where none is given.
set -eu
here=$(cd "$(dirname "$0")" && pwd)
tutor=$here/../tutor
runs=${1:-10}
input=$(mktemp)
trap 'rm -f "$input"' EXIT
. "$here/timing.sh"

# A conjunction of 57 biconditionals, each of a biconditional and itself: 7 nodes a part, and the conjunction's own.
sentence=$(awk 'BEGIN {
    for (i = 0; i < 57; i++) {
        a = sprintf("%c", 65 + i % 16)
        b = sprintf("%c", 65 + (i * 7 + 1) % 16)
        printf "%s((%s %% %s) %% (%s %% %s))", (i ? " & " : ""), a, b, a, b
    }
}')
printf 'task 1\ngoal %s\ncon Taut\nproof 1\n1 | %s ; Taut Con\n' "$sentence" "$sentence" > "$input"

"$tutor" > /dev/null || true # builds the program where it isn't there
"$tutor" check < "$input" || true
echo "$(milliseconds "$(mean "$input" "$tutor" check)") milliseconds for 65536 rows"
