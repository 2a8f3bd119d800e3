# For the scripts beside it, which set `runs`: how long a command takes.

# The time of one run of a command over an input file, in microseconds: the mean of $runs runs. mean FILE COMMAND...
mean() {
    file=$1
    shift
    begin=$(date +%s%N)
    run=0
    while [ "$run" -lt "$runs" ]; do
        "$@" < "$file" > /dev/null || true
        run=$((run + 1))
    done
    end=$(date +%s%N)
    echo $(((end - begin) / runs / 1000))
}

# Microseconds as milliseconds.
milliseconds() {
    awk -v micros="$1" 'BEGIN { printf "%.2f", micros / 1000 }'
}
