# Prints the one of the lines that is nearest to `-v word=WORD`, if it is near: at most a third of its letters, or one,
# are to be put in, left out, changed, or exchanged with their neighbour.
function distance(one, other,   at, to, cost, best) {
    for (at = 0; at <= length(one); at++) held[at, 0] = at
    for (to = 0; to <= length(other); to++) held[0, to] = to
    for (at = 1; at <= length(one); at++)
        for (to = 1; to <= length(other); to++) {
            cost = substr(one, at, 1) != substr(other, to, 1)
            best = held[at - 1, to - 1] + cost
            if (held[at - 1, to] + 1 < best) best = held[at - 1, to] + 1
            if (held[at, to - 1] + 1 < best) best = held[at, to - 1] + 1
            if (at > 1 && to > 1 && substr(one, at, 1) == substr(other, to - 1, 1) \
                && substr(one, at - 1, 1) == substr(other, to, 1) && held[at - 2, to - 2] + 1 < best)
                best = held[at - 2, to - 2] + 1
            held[at, to] = best
        }
    return held[length(one), length(other)]
}
{
    most = length(word) > 5 ? int(length(word) / 3) : 1
    if (word != "" && length(word) < 32 && (far = distance(tolower(word), $0)) <= most \
        && (found == "" || far < least)) { found = $0; least = far }
}
END { if (found != "") print found }
