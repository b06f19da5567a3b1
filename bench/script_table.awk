# Makes the table of the samples of bench/script: lines `SCRIPT MILLISECONDS` and `SCRIPT-memory KILOBYTES`.

# The least of what the rounds of one script took: what else the machine does adds to a round and takes nothing from it.
function least(script,    count, i, values, value) {
    count = split(samples[script], values, " ")
    value = values[1]
    for (i = 2; i <= count; i++)
        if (values[i] + 0 < value + 0)
            value = values[i]
    return value
}

# The nanoseconds of each line that the one script has and the other hasn't.
function line_of(script, without) {
    return (least(script) - least(without)) * 1e6 / names
}

function row(label, few, many) {
    printf "%-34s %12d %8.0f %12d %8.0f", label, 1e9 / few, few, 1e9 / many, many
    printf "     %.2f\n", many / few
}

{ samples[$1] = samples[$1] " " $2 }

END {
    printf "%d lines of each kind, processor time, least of %d rounds, replies to /dev/null\n\n", names, rounds
    printf "%-34s %21s %21s     %s\n", "", "ten names in use", names " in use", "ratio"
    printf "%-34s %12s %8s %12s %8s\n", "", "lines a s", "ns", "lines a s", "ns"
    pairs = line_of("few-pairs", "few")
    row("lock, unlock, one after the other", pairs, line_of("open-pairs", "open"))
    row("lock, from none in use on", pairs, line_of("open", "few"))
    row("unlock, until none is in use", pairs, line_of("open-close", "open"))
    row("state", line_of("few-state", "few"), line_of("open-state", "open"))
    printf "\n%-34s %12d kB %17d kB\n", "memory at the most", least("few-memory"), least("open-memory")
    printf "%-34s %33d bytes\n", "memory of a name", (least("open-memory") - least("few-memory")) * 1024 / names
}
