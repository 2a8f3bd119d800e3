#!/bin/sh
# Runs programs that answer cases, each given as crates/NAME/out/NAME and already built, with each of their allocations
# refused in turn, the first in the first run. No run may print a wrong reply: what it writes begins the crate's file
# `stdout`, and its status isn't 0. A program is done with the run in which no allocation is left to refuse: this one writes
# all of `stdout`, with status 0. It is run by hand and needs a C compiler.
set -eu
here=$(cd "$(dirname "$0")" && pwd)
work=$(mktemp -d)
trap 'rm -rf "$work"' EXIT
cc -shared -fPIC -O2 -Wall -o "$work/failn.so" "$here/refused_memory/failn.c" -ldl

wrong() {
    echo "$name: $1, where allocation $at is refused" >&2
    exit 1
}

# Runs the program with one allocation refused, in a folder of its own.
run() {
    rm -rf "$work/in" "$work/mark"
    mkdir "$work/in"
    [ ! -d "$crate/data" ] || cp -R "$crate/data/." "$work/in"
    status=0
    (cd "$work/in" && FAIL_AT=$at FAIL_MARK="$work/mark" LD_PRELOAD="$work/failn.so" exec "$program" "$@") \
        < "$input" > "$work/out" 2> /dev/null || status=$?
}

for given; do
    program=$(cd "$(dirname "$given")" && pwd)/$(basename "$given")
    name=$(basename "$program")
    crate=$(cd "$(dirname "$program")/.." && pwd)
    input=$crate/stdin
    [ -f "$input" ] || input=/dev/null
    set --
    if [ -f "$crate/args" ]; then
        while IFS= read -r word; do set -- "$@" "$word"; done < "$crate/args"
    fi
    at=1
    run "$@"
    while [ -e "$work/mark" ]; do
        [ "$status" -ne 0 ] || wrong "the status is 0"
        head -c "$(wc -c < "$work/out")" "$crate/stdout" | cmp -s - "$work/out" || wrong "a reply is wrong"
        at=$((at + 1))
        run "$@"
    done
    [ "$status" -eq 0 ] || wrong "the status is $status"
    cmp -s "$crate/stdout" "$work/out" || wrong "a reply is wrong"
    echo "$name: $((at - 1)) allocations refused in turn, and no reply is wrong"
done
