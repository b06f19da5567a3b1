# Makes the table of the samples: lines `ROUND NAME SIZE median NS least NS most NS`, of which it takes the medians, or the
# least where `taken` says so.
# For each thing and size: the median of the rounds with the least and the most, and the same of its ratio to the model
# in the same round.

function sort_rounds(values, count,    i, j, value) {
    for (i = 2; i <= count; i++) {
        value = values[i]
        for (j = i - 1; j >= 1 && values[j] > value; j--)
            values[j + 1] = values[j]
        values[j + 1] = value
    }
}

function spread(values, count) {
    sort_rounds(values, count)
    return sprintf("%8.2f  (%.2f to %.2f)", values[int((count + 1) / 2)], values[1], values[count])
}

# The spread of one thing's nanoseconds divided by those of another thing, or of 1 where there is none.
function ratios(name, size, base, base_size,    values, round, count, divisor) {
    count = 0
    for (round = 1; round <= rounds; round++) {
        # To look at a place in `ns` makes it, and a row of it would be printed.
        divisor = base == "" ? 1 : (round, base, base_size) in ns ? ns[round, base, base_size] : 0
        if ((round, name, size) in ns && divisor > 0)
            values[++count] = ns[round, name, size] / divisor
    }
    return count == 0 ? "" : spread(values, count)
}

function row(label, name, size, base) {
    if ((1, name, size) in ns)
        printf "%-44s %-28s %s\n", label, ratios(name, size, ""), ratios(name, size, base, size)
}

function threads(size) {
    return size == 1 ? "1 thread" : size " threads"
}

function pair_rows(size) {
    row("this domain, " threads(size), "srcubench", size, "model")
    row("(a) C11 model of it, " threads(size), "model", size, "model")
    row("(a) with what a Cpu keeps, " threads(size), "keeping-model", size, "model")
    row("(b) pthread_rwlock, " threads(size), "rwlock", size, "model")
    row("(c) one shared atomic counter, " threads(size), "counter", size, "model")
    row("(d) liburcu mb, " threads(size), "urcu-mb", size, "model")
    row("(d) liburcu memb, " threads(size), "urcu-memb", size, "model")
}

function held_row() {
    row("this domain", "srcubench-held", 1, "model-held")
    row("(a) C11 model of it", "model-held", 1, "model-held")
}

function processors(size) {
    return size == 1 ? "1 processor" : size " processors"
}

function period_rows(size) {
    row("the engine, " processors(size), "srcubench-quiet-period", size, "model-quiet-period")
    row("through Domain::advance, " processors(size), "srcubench-domain-period", size, "model-quiet-period")
    row("asked for, Domain::drive, " processors(size), "srcubench-drive", size, "model-quiet-period")
    row("C11 model of it, " processors(size), "model-quiet-period", size, "model-quiet-period")
}

function ask_rows(size) {
    row("tree of needs, new number, " threads(size), "srcubench-ask-new", size, "shared-max-new")
    row("one shared word, new number, " threads(size), "shared-max-new", size, "shared-max-new")
    row("tree of needs, known number, " threads(size), "srcubench-ask-known", size, "shared-max-known")
    row("one shared word, known number, " threads(size), "shared-max-known", size, "shared-max-known")
}

# One thread alone at a tree of many processors, beside the word that one thread raises.
function ask_alone_row(label, name, size, base) {
    if ((1, name, size) in ns)
        printf "%-44s %-28s %s\n", label ", " processors(size), ratios(name, size, ""), ratios(name, size, base, 1)
}

function ask_alone_rows(size) {
    ask_alone_row("tree of needs, new number", "srcubench-ask-new-alone", size, "shared-max-new")
    ask_alone_row("tree of needs, known number", "srcubench-ask-known-alone", size, "shared-max-known")
}

function synchronize_rows(size) {
    row("this domain, " processors(size), "srcubench-synchronize", size, "urcu-mb-synchronize")
    row("liburcu mb, " size (size == 1 ? " reader" : " readers"), "urcu-mb-synchronize", size, "urcu-mb-synchronize")
    row("liburcu memb, " size (size == 1 ? " reader" : " readers"), "urcu-memb-synchronize", size, "urcu-mb-synchronize")
}

function synchronize_at_once_rows() {
    row("this domain, 8 threads at once", "srcubench-synchronize-at-once", 8, "urcu-mb-synchronize-at-once")
    row("liburcu mb, 8 threads at once", "urcu-mb-synchronize-at-once", 8, "urcu-mb-synchronize-at-once")
    row("liburcu memb, 8 threads at once", "urcu-memb-synchronize-at-once", 8, "urcu-mb-synchronize-at-once")
}

function entry_rows() {
    row("callback list, all at once", "srcubench-list", 1, "srcubench-queue")
    row("plain queue, all at once", "srcubench-queue", 1, "srcubench-queue")
    row("callback list, eight at a time", "srcubench-list-in-batches", 1, "srcubench-queue-in-batches")
    row("plain queue, eight at a time", "srcubench-queue-in-batches", 1, "srcubench-queue-in-batches")
}

function job_rows(size) {
    row("this domain, to queue it, " threads(size), "srcubench-call", size, "urcu-memb-call")
    row("while one more gives out, " threads(size), "srcubench-call-given", size, "urcu-memb-call")
    row("liburcu memb, to queue it, " threads(size), "urcu-memb-call", size, "urcu-memb-call")
    row("this domain, to the end, " threads(size), "srcubench-callbacks", size, "urcu-memb-callbacks")
    row("while one more gives out, to the end, " size, "srcubench-callbacks-given", size, "urcu-memb-callbacks")
    row("while a driver runs them, to the end, " size, "servebench-callbacks", size, "urcu-memb-callbacks")
    row("liburcu memb, to the end, " threads(size), "urcu-memb-callbacks", size, "urcu-memb-callbacks")
}

function delay_rows() {
    row("a driver, median", "servebench-delay", 1, "urcu-memb-delay")
    row("liburcu memb, median", "urcu-memb-delay", 1, "urcu-memb-delay")
    row("a driver, 99 of 100", "servebench-delay-late", 1, "urcu-memb-delay-late")
    row("liburcu memb, 99 of 100", "urcu-memb-delay-late", 1, "urcu-memb-delay-late")
}

# What a Rust programmer would take instead.
function rust_rows(thing, size) {
    row("arc-swap load, " threads(size), "arc-swap-" thing, size, "model-" thing)
    row("crossbeam-epoch pin, " threads(size), "epoch-" thing, size, "model-" thing)
    row("std RwLock, " threads(size), "std-rwlock-" thing, size, "model-" thing)
    row("parking_lot RwLock, " threads(size), "parking-lot-" thing, size, "model-" thing)
}

function find_rows(words, size,    finds) {
    finds = "find-" words
    row("this domain, " threads(size), "srcubench-" finds, size, "model-" finds)
    row("C11 model of it, " threads(size), "model-" finds, size, "model-" finds)
    row("atomic pointer, no section, " threads(size), "pointer-" finds, size, "model-" finds)
    row("pthread_rwlock, " threads(size), "rwlock-" finds, size, "model-" finds)
    rust_rows(finds, size)
}

function box_rows(size) {
    row("this domain, " threads(size), "srcubench-box", size, "model-box")
    row("this domain, a live value, " threads(size), "valuebench-show", size, "model-box")
    row("C11 model of it, " threads(size), "model-box", size, "model-box")
    row("left_right, " threads(size), "left-right-read", size, "model-box")
    row("liburcu memb, " threads(size), "urcu-memb-box", size, "model-box")
    row("arc-swap load, " threads(size), "arc-swap-box", size, "model-box")
    row("crossbeam-epoch pin, " threads(size), "epoch-box", size, "model-box")
    row("std RwLock of an Arc, " threads(size), "std-rwlock-arc", size, "model-box")
    row("parking_lot RwLock of an Arc, " threads(size), "parking-lot-arc", size, "model-box")
}

function put_rows() {
    row("this domain", "srcubench-put", 1, "model-put")
    row("C11 model of it", "model-put", 1, "model-put")
    row("pthread_rwlock, no grace period", "rwlock-put", 1, "model-put")
    row("left_right publish of a number", "left-right-publish", 1, "model-put")
    row("arc-swap store", "arc-swap-put", 1, "model-put")
    row("crossbeam-epoch swap", "epoch-put", 1, "model-put")
}

function chain_rows(blocks, size,    calls) {
    calls = "chain-call-" blocks
    row("this domain, " threads(size), "srcubench-" calls, size, "model-" calls)
    row("C11 model of it, " threads(size), "model-" calls, size, "model-" calls)
    row("pthread_rwlock, " threads(size), "rwlock-" calls, size, "model-" calls)
}

function chain_change_rows() {
    row("this domain", "srcubench-chain-change", 1, "model-chain-change")
    row("C11 model of it", "model-chain-change", 1, "model-chain-change")
    row("pthread_rwlock, no grace period", "rwlock-chain-change", 1, "model-chain-change")
}

function lookup_rows(size) {
    row("this domain, " threads(size), "srcubench-lookup", size, "model-lookup")
    row("this domain, by a lease, " threads(size), "srcubench-lease", size, "model-lookup")
    row("C11 model of it, " threads(size), "model-lookup", size, "model-lookup")
    row("pthread_rwlock, " threads(size), "rwlock-lookup", size, "model-lookup")
    rust_rows("lookup", size)
}

function install_rows() {
    row("this domain", "srcubench-install", 1, "model-install")
    row("C11 model of it", "model-install", 1, "model-install")
    row("pthread_rwlock, no grace period", "rwlock-install", 1, "model-install")
}

function update_rows(size) {
    row("this domain, " threads(size), "valuebench-update", size, "arc-swap-update")
    row("arc-swap rcu, " threads(size), "arc-swap-update", size, "arc-swap-update")
}

# A registry beside a box, which a lookup finds and then searches, and beside maps.
function device_rows(keys, size,    finds) {
    finds = "find-" keys
    row("this registry, " threads(size), "valuebench-" finds, size, "srcubench-box")
    row("a box of this domain, " threads(size), "srcubench-box", size, "srcubench-box")
    row("arc-swap of a BTreeMap, " threads(size), "arc-swap-" finds, size, "srcubench-box")
    row("std RwLock of a HashMap, " threads(size), "std-rwlock-" finds, size, "srcubench-box")
}

function change_rows(change, keys) {
    row("this registry, " keys " keys", "valuebench-" change "-" keys, 1, "arc-swap-" change "-" keys)
    row("arc-swap of a BTreeMap, " keys " keys", "arc-swap-" change "-" keys, 1, "arc-swap-" change "-" keys)
    row("std RwLock of a HashMap, " keys " keys", "std-rwlock-" change "-" keys, 1, "arc-swap-" change "-" keys)
}

function growth_row(label, name, size) {
    if ((1, name, size) in ns)
        printf "%-44s %s\n", label ", " threads(size), ratios(name, size, name, 1)
}

{
    ns[$1, $2, $3] = taken == "least" ? $7 : $5
    if ($1 > rounds)
        rounds = $1
    if ($3 > most)
        most = $3
}

END {
    printf "%d rounds; ns of wall time: median of the rounds (least to most); ratios within one round\n\n", rounds
    printf "%-44s %-28s %s\n", "one pair of lock and unlock", "      ns", "ratio to (a)"
    for (size = 1; size <= most; size *= 2)
        pair_rows(size)
    print ""
    printf "%-44s %-28s %s\n", "one held section, ended on another processor", "      ns", "ratio to (a)"
    held_row()
    print ""
    printf "%-44s %-28s %s\n", "one quiet grace period", "      ns", "ratio to the model"
    for (size = 1; size <= most; size *= 2)
        period_rows(size)
    print ""
    printf "%-44s %-28s %s\n", "asking for one", "      ns", "ratio to the shared word"
    for (size = 1; size <= most; size *= 2)
        ask_rows(size)
    for (size = 1; size <= most; size *= 2)
        ask_alone_rows(size)
    print ""
    printf "%-44s %-28s %s\n", "one synchronize with nobody reading", "      ns", "ratio to liburcu mb"
    for (size = 1; size <= most; size *= 2)
        synchronize_rows(size)
    synchronize_at_once_rows()
    print ""
    printf "%-44s %-28s %s\n", "one entry of a list", "      ns", "ratio to the queue"
    entry_rows()
    print ""
    printf "%-44s %-28s %s\n", "one of 20000 callbacks", "      ns", "ratio to liburcu memb"
    for (size = 1; size <= 4; size *= 2)
        job_rows(size)
    print ""
    printf "%-44s %-28s %s\n", "from the last section\047s end to the job", "      ns", "ratio to liburcu memb"
    delay_rows()
    print ""
    printf "%-44s %-28s %s\n", "a version found, and one word of it", "      ns", "ratio to the model"
    for (size = 1; size <= 4; size *= 2)
        find_rows(1, size)
    print ""
    printf "%-44s %-28s %s\n", "a version found, and its sixteen words", "      ns", "ratio to the model"
    for (size = 1; size <= 4; size *= 2)
        find_rows(16, size)
    print ""
    printf "%-44s %-28s %s\n", "a box found, and a word read in it", "      ns", "ratio to the model"
    for (size = 1; size <= 4; size *= 2)
        box_rows(size)
    print ""
    printf "%-44s %-28s %s\n", "a put of sixteen words and a grace period", "      ns", "ratio to the model"
    put_rows()
    print ""
    printf "%-44s %-28s %s\n", "a call of a chain of four handlers", "      ns", "ratio to the model"
    for (size = 1; size <= 4; size *= 2)
        chain_rows(4, size)
    print ""
    printf "%-44s %-28s %s\n", "a call of a chain of fifteen handlers", "      ns", "ratio to the model"
    for (size = 1; size <= 4; size *= 2)
        chain_rows(15, size)
    print ""
    printf "%-44s %-28s %s\n", "a change of a chain and a grace period", "      ns", "ratio to the model"
    chain_change_rows()
    print ""
    printf "%-44s %-28s %s\n", "one key of fifteen looked up", "      ns", "ratio to the model"
    for (size = 1; size <= 4; size *= 2)
        lookup_rows(size)
    print ""
    printf "%-44s %-28s %s\n", "an install and a grace period", "      ns", "ratio to the model"
    install_rows()
    print ""
    printf "%-44s %-28s %s\n", "an update of 100 rows beside four readers", "      ns", "ratio to arc-swap"
    for (size = 1; size <= 4; size *= 2)
        update_rows(size)
    print ""
    printf "%-44s %-28s %s\n", "a device of fifteen keys looked up", "      ns", "ratio to a box"
    for (size = 1; size <= 4; size *= 2)
        device_rows(15, size)
    print ""
    printf "%-44s %-28s %s\n", "a device of a thousand keys looked up", "      ns", "ratio to a box"
    for (size = 1; size <= 4; size *= 2)
        device_rows(1000, size)
    print ""
    printf "%-44s %-28s %s\n", "a device removed, until it is back", "      ns", "ratio to arc-swap"
    change_rows("remove", 15)
    change_rows("remove", 1000)
    print ""
    printf "%-44s %-28s %s\n", "a device inserted", "      ns", "ratio to arc-swap"
    change_rows("insert", 15)
    change_rows("insert", 1000)
    print ""
    printf "%-44s %s\n", "at several threads against at 1", "   ratio"
    for (size = 2; size <= most; size *= 2) {
        growth_row("a pair, this domain", "srcubench", size)
        growth_row("a pair, (a) C11 model of it", "model", size)
        growth_row("a live value", "valuebench-show", size)
        growth_row("a device of fifteen", "valuebench-find-15", size)
        growth_row("a device of a thousand", "valuebench-find-1000", size)
    }
}

