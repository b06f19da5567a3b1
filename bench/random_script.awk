# Writes one random script: a comment with the options to run it with, and then lines of every kind, well and faulty; those of
# sets only where `sets` is 1.
# The seed decides all of it, with every awk: the numbers come from a generator of its own.

function below(bound) {
    random = (random * 16807) % 2147483647
    return int(random / 2147483647 * bound)
}

function chance(percent) {
    return below(100) < percent
}

function one_of(list,    items) {
    return items[1 + below(split(list, items, ","))]
}

function repeated(text, count,    all) {
    all = ""
    while (count-- > 0)
        all = all text
    return all
}

# What is no name, and what is no number below 2^64.
function bad_name() {
    return one_of("A,Web,a_b,a-b,a.b,abcdefghij0123456,~,a\"b,#a," repeated("z", 40))
}

function bad_number() {
    return one_of("-1,+1,01,00,007,1a,x,0x1,1.0,18446744073709551616,18446744073709551620,100000000000000000000," repeated("9", 60))
}

# Sixteen characters for some, so that names of all lengths are there.
function padded(name) {
    return long_names ? substr(name "0123456789abcdef", 1, 16) : name
}

function domain_name() {
    return chance(faults) ? bad_name() : padded("d" below(domains) "x")
}

# Looks, sections, tickets and leases share their names, so that one kind is often found where another should be.
function token_name() {
    return chance(faults) ? bad_name() : padded("s" below(tokens) "x")
}

function processor() {
    if (chance(faults))
        return chance(50) ? bad_number() : one_of("2,3,7,63,64,255,256,18446744073709551615")
    return below(chance(50) ? 2 : most_processors)
}

function processors() {
    if (chance(faults))
        return bad_number()
    return chance(20) ? one_of("0,257,258,512,18446744073709551615") : 1 + below(most_processors)
}

function cookie() {
    if (chance(faults))
        return bad_number()
    if (chance(20))
        return one_of("1,2,3,5,6,7,18446744073709551615,18446744073709551612,9223372036854775808,2305843009213693948,2305843009213693952,2305843009213693956")
    return 4 * below(8)
}

# The handler of a block, 0 to 15.
function handler() {
    if (chance(faults))
        return chance(50) ? bad_number() : "16"
    return below(chance(70) ? 4 : 16)
}

function priority() {
    if (chance(faults))
        return one_of("-0,+1,-01,2147483648,-2147483649,x,-")
    return one_of("-5,-1,0,0,5,5,9,-2147483648,2147483647")
}

# The processors whose cookies make a set: from one to eight, each with its domain.
function members(    all, count) {
    all = ""
    count = chance(faults) ? one_of("0,9,12") : 1 + below(chance(80) ? 3 : 8)
    while (count-- > 0)
        all = all " " domain_name() " " processor()
    return chance(faults) ? all " " domain_name() : all
}

# A key, or a plug: a number of 32 bits.
function word_of_32_bits() {
    if (chance(faults))
        return chance(50) ? bad_number() : "4294967296"
    return chance(90) ? below(4) : one_of("4294967295,65536," below(1000))
}

# What handlers answer, each of them once but where a fault is wanted.
function pairs(    all, id) {
    all = ""
    for (id = 0; id < 16; id++)
        if (chance(20))
            all = all " " id ":" one_of("done,ok,ok,stop,bad")
    if (chance(faults))
        all = all " " one_of("0:ok,1,1:,:ok,1:OK,16:ok,01:ok,1:ok:,-1:bad," bad_number() ":stop")
    return all
}

function words_of(command) {
    if (command == "domain")
        return command " " domain_name() " " processors()
    if (command == "state" || command == "unpark" || command == "cleanup")
        return command " " domain_name()
    if (command == "unlock" || command == "park")
        return command " " domain_name() " " token_name()
    if (command == "look" || command == "enter" || command == "lock" || command == "down" || command == "up" || command == "call" || command ~ /^barrier/)
        return command " " domain_name() " " processor() " " token_name()
    if (command == "set")
        return command " " token_name() members()
    if (command == "set-poll")
        return command " " token_name()
    if (command == "poll")
        return command " " domain_name() " " processor() " " cookie()
    if (command == "register")
        return command " " domain_name() " " processor() " " handler() " " priority()
    if (command == "unregister")
        return command " " domain_name() " " processor() " " handler()
    if (command == "notify")
        return command " " domain_name() " " processor() pairs()
    if (command == "install")
        return command " " domain_name() " " processor() " " word_of_32_bits() " " word_of_32_bits()
    if (command == "remove" || command == "lookup")
        return command " " domain_name() " " processor() " " word_of_32_bits()
    if (command == "lease" || command == "release")
        return command " " domain_name() " " processor() " " token_name()
    if (command == "read")
        return command " " domain_name() " " processor() " " token_name() " " word_of_32_bits()
    return command " " domain_name() " " processor()
}

# A byte that no line may have, which is no line feed.
function bad_byte() {
    return chance(50) ? sprintf("%c", one_of("1,9,13,27,31,127")) : sprintf("%c", 128 + below(128))
}

# A line that is spoilt in one way.
function spoilt(line,    words, count) {
    count = split(line, words, " ")
    kind = below(8)
    if (kind == 0)
        return substr(line, 1, below(length(line) + 1)) bad_byte() line
    if (kind == 1)
        return line repeated(" ", 201 - length(line) + below(3))
    if (kind == 2)
        return repeated("x", 195 + below(400))
    if (kind == 3)
        return one_of("Lock,locks,loc,advance1,help,exit,lookups,STATE,.,0,synchronize,barriers,downs,unpar,runs,cal") substr(line, length(words[1]) + 1)
    if (kind == 4)
        return words[1]
    if (kind == 5)
        return line " " words[count]
    if (kind == 6)
        return words[1] " " words[2]
    return bad_byte()
}

# A line that gets no reply, or that is spaced otherwise.
function spaced(line,    kind) {
    kind = below(7)
    if (kind == 0)
        return ""
    if (kind == 1)
        return repeated(" ", 1 + below(200))
    if (kind == 2)
        return repeated(" ", below(3)) "#" line
    if (kind == 3)
        return "# " repeated("~", below(198))
    gsub(/ /, repeated(" ", 1 + below(4)), line)
    if (kind == 4)
        return line
    if (kind == 5)
        return repeated(" ", 1 + below(9)) line repeated(" ", below(5))
    return line repeated(" ", 200 - length(line))
}

function script_line(    line) {
    line = words_of(chance(30) ? one_of(driving) : one_of(acting))
    if (chance(faults))
        return spoilt(line)
    return chance(5) ? spaced(line) : line
}

function options() {
    return (chance(60) ? " --sections " (1 + below(6)) : "") (chance(60) ? " --periods " (1 + below(3)) : "")
}

BEGIN {
    random = (seed * 7919 + 104729) % 2147483647
    for (i = 0; i < 20; i++)
        below(2)
    acting = "look,enter,lock,lock,unlock,unlock,down,down,up,up,park,park,unpark,unpark,get,ask,poll,poll,state,domain" \
        ",call,call,call,call,run,run,run,batch,finish,segs,barrier,barrier-poll,barrier-poll,cleanup" \
        ",register,register,unregister,chain,notify,notify,install,install,remove,lookup,lease,read,release,release"
    if (sets)
        acting = acting ",set,set,set-poll,set-poll,set-poll"
    driving = "start,advance,advance,step,step,step"
    faults = one_of("0,1,5,20")
    domains = one_of("1,2,3,12")
    tokens = one_of("1,3,8,30")
    most_processors = one_of("2,2,5,64,256")
    long_names = chance(20)
    printf "#%s\n", chance(70) ? options() : ""
    for (i = 0; i < domains && chance(90); i++)
        printf "domain %s %d\n", padded("d" i "x"), 1 + below(most_processors)
    count = one_of("0,1,30,100,300")
    while (count-- > 0)
        printf "%s\n", script_line()
    if (chance(30))
        printf "%s", script_line()
}
