# Prints how long the rest of a build takes, as "about 38 min", or nothing where the record is
# empty.
#
#     awk -v now=SECONDS -v workers=NUMBER -f time_left.awk RECORD ENDS QUEUE
#
# RECORD has lines `PART SECONDS`, ENDS lines `PART SECONDS HOW` of what has ended, in seconds from
# the start of the build, and QUEUE lines `PART HOW USED..` in the order of the build. A worker
# takes the next part of the queue and begins it once the parts that it uses have ended. A part that
# has not ended takes its seconds of the record (the mean of all, where it is not there), by the
# ratio of measured to recorded seconds of those that have ended. Parts that are `new` and those
# that are proved `again` have a ratio each; what is `kept` takes no time.

# Goes through the whole build, and returns when it ends.
function play(    i, k, w, n, used, free, start) {
    for (i = 1; i <= total; i++) {
        w = 1
        for (k = 2; k <= workers; k++) if (free[k] + 0 < free[w] + 0) w = k
        start = free[w] + 0
        n = split(uses[i], used, " ")
        for (k = 1; k <= n; k++) if (end[used[k]] > start) start = end[used[k]]
        began[i] = start
        free[w] = end[part[i]] = has_ended(i) ? ended[part[i]] : forecast(i, start)
    }
    return end[part[total]]
}

function has_ended(i) {
    return part[i] in ended
}

# When a part ends that has not yet.
function forecast(i, start) {
    return how[i] == "kept" ? start : start + (is_late(i, start) ? late(start) : seconds[i] * ratio[how[i]])
}

# Whether a part should have ended by now.
function is_late(i, start) {
    return !has_ended(i) && now - start > seconds[i] * ratio[how[i]]
}

# What a part is taken to need that should have ended: a quarter more than it took until now.
function late(start) {
    return (now - start) * 5 / 4
}

# Sets the ratios, from what has ended and what should have.
function measure(    i, h, took, wanted) {
    play()
    for (i = 1; i <= total; i++) {
        if (how[i] == "kept" || !has_ended(i) && !is_late(i, began[i])) continue
        took[how[i]] += has_ended(i) ? ended[part[i]] - began[i] : late(began[i])
        wanted[how[i]] += seconds[i]
    }
    for (h in wanted) if (wanted[h] > 0) ratio[h] = took[h] / wanted[h]
    if (!("again" in wanted)) ratio["again"] = ratio["new"]
}

/^[ \t]*(#|$)/ { next }
FILENAME == ARGV[1] { recorded[$1] = $2; sum += $2; lines++; next }
FILENAME == ARGV[2] { ended[$1] = $2; came[$1] = $3; next }
{
    total++
    part[total] = $1
    how[total] = ($1 in came) ? came[$1] : $2
    seconds[total] = ($1 in recorded) ? recorded[$1] : sum / (lines ? lines : 1)
    if (how[total] == "again") again[has_ended(total)]++
    $1 = $2 = ""
    uses[total] = $0
}

END {
    if (!sum) exit
    ratio["new"] = ratio["again"] = 1
    measure()
    measure()
    left = int((play() - now) / 60 + 0.5)
    # (nothing shows how long a crate takes that is proved again, before one of them has ended)
    print (again[0] && !again[1] ? "at most " : "about ") (left > 1 ? left : 1) " min"
}
