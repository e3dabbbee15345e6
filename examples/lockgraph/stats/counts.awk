# Counts what `lockgraph stats` and `list` count of a stream, of which no trace is refused: events by verb, the
# greatest depth, the chains, and how often each class is acquired. A task's locks stand in order in one text, in
# which a bar stands where a handler began.
function class_of(lock) {
    sub(/@.*/, "", lock)
    return lock
}
# What stands behind the last bar.
function frame(held) {
    sub(/.*[|]/, "", held)
    return held
}
function take(task, lock, class, locks, count, at, chain) {
    acquired[class]++
    held[task] = held[task] " " lock "=" class
    count = split(held[task], locks, /[ |]+/)
    if (count - 1 > depth) depth = count - 1
    count = split(frame(held[task]), locks, " ")
    chain = ""
    for (at = 1; at <= count; at++) {
        sub(/.*=/, "", locks[at])
        chain = chain " " locks[at]
    }
    if (!(chain in chains)) {
        chains[chain]
        distinct++
    }
}
# Lets the last such lock of the frame go.
function drop(task, lock, own, before, locks, count, at, last) {
    own = frame(held[task])
    before = substr(held[task], 1, length(held[task]) - length(own))
    count = split(own, locks, " ")
    for (at = 1; at <= count; at++) if (substr(locks[at], 1, length(lock) + 1) == lock "=") last = at
    own = ""
    for (at = 1; at <= count; at++) if (at != last) own = own " " locks[at]
    held[task] = before own
}
/^[ \t\r]*(#|$)/ { next }
{ sub(/\r$/, "") }
$1 == "trace" { split("", held); next }
{ events++; verbs[$1]++ }
$1 == "acquire" || $1 == "try" { take($2, $3, class_of($3)) }
$1 == "nested" { take($2, $3, class_of($3) "/" $4) }
$1 == "release" { drop($2, $3) }
$1 == "enter" { held[$2] = held[$2] "|" }
$1 == "exit" { sub(/[|][^|]*$/, "", held[$2]) }
END {
    print "events", events
    count = split("acquire nested try release enter exit enable disable begin", names, " ")
    for (at = 1; at <= count; at++) print "events-" names[at], verbs[names[at]] + 0
    print "chains", distinct + 0
    print "depth", depth + 0
    for (class in acquired) print "acquired", class, acquired[class]
}
