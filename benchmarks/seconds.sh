# What the benchmarks share. They read it in, at the top of the repository.

# the seconds that the processor takes for a run of the script
seconds() {
    local TIMEFORMAT=%U
    { time ./derive batch < "$1" > /dev/null 2>&1 || true; } 2>&1
}
