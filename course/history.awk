# What a picture shows of a history, by document 01's "Time" and "Table": who was admitted and handed out when, and from when on each one
# may speak, is due, may be tried again and expires. What a line did is taken from its answer. The answers to wake are worked out as well,
# and one that is not what the rules say is an error. The drawing is picture.awk's.
#
# An instant is a string of twenty digits: so it is exact up to the last one, and strings compare as the instants do.

BEGIN {
    FIRST = instant("0")
    LAST = instant("18446744073709551615")
    split("sent unsent retry failed abandoned", OUTCOME, " ")
    split("gate retry due expiry", KIND, " ")
}

part == "answers" {
    sub(/\r$/, "")
    split($0, a, ",")
    code[a[1]] = a[2]
    value[a[1]] = a[3]
    next
}

# A line ends at CRLF; a lone LF stands within it.
{
    text = text $0
    if (sub(/\r$/, "", text)) { line[++lines] = text; text = "" } else text = text "\n"
}

END {
    if (text != "") line[++lines] = text
    tellTimes()
    for (i = 1; i <= lines; i++) if (acted(i)) play(i)
    if (wrong) exit 1
    picture()
}

# ---- instants

function instant(digits) { return substr("00000000000000000000" digits, length(digits) + 1) }

# Its first eight digits and its last twelve as numbers. A digit stands in front because some awks read a leading 0 as octal.
function high(at) { return ("1" substr(at, 1, 8)) - 100000000 }

function low(at) { return ("1" substr(at, 9)) - 1000000000000 }

function plus(at, secs,   sum, carry) {
    sum = low(at) + secs * 1000
    carry = int(sum / 1000000000000)
    return sprintf("%08d%012.0f", high(at) + carry, sum - carry * 1000000000000)
}

function laterOf(a, b) { return a > b ? a : b }

# "A reported_at of 2^64 - 1 means never reported: due at 0, minimum gate 0."; "On overflow both become 0."
function since(at, secs,   sum) {
    sum = plus(at, secs)
    return at == LAST || sum > LAST ? FIRST : sum
}

function gateOf(lane) { return since(reported[lane], shortest[lane]) }

function dueOf(lane, icd,   half) {
    half = int(longest[lane] / 2)
    return since(reported[lane], longest[lane] - (icd && half > 3 ? 3 : half))
}

# "2 shifted left by min(max(fails - 1, 0), 15), then at most max(max_int, 2) seconds."; "Retry on overflow: 2^64 - 1."
function retryOf(lane,   n, secs, most, sum) {
    secs = 2
    for (n = 1; n < fails[lane] && n < 16; n++) secs *= 2
    most = longest[lane] > 2 ? longest[lane] : 2
    sum = plus(opened[lane], secs < most ? secs : most)
    return sum > LAST ? LAST : sum
}

# ---- the lines

function acted(i) { return (i in code) && code[i] == 0 }

function hasTime(i, f) { return (i in code) && code[i] != 8 && (f[1] == "add" || f[1] == "report") }

# A line without a time of its own, or with an earlier one, stands at the time of the line above it; the first ones stand at the first time.
# By which keep-alive rule a due instant goes is told by the next line that asks for one.
function tellTimes(   i, f, clock, icd) {
    for (i = 1; i <= lines; i++) {
        split(line[i], f, ",")
        if (hasTime(i, f)) clock = laterOf(clock "", instant(f[2]))
        when[i] = clock
        if (start == "") start = clock
    }
    if (start == "") start = FIRST
    for (i = 1; i <= lines && when[i] == ""; i++) when[i] = start
    for (i = lines; i > 0; i--) {
        icdAfter[i] = icd
        split(line[i], f, ",")
        if (acted(i) && f[1] == "report") icd = f[4]
        if (acted(i) && f[1] == "wake") icd = f[3]
    }
}

function play(i,   f, lane) {
    split(line[i], f, ",")
    if (f[1] == "new") startAnew(i)
    if (f[1] == "add") admit(i, f)
    if (f[1] == "note") note(i)
    if (f[1] == "report" && value[i] in laneOf) begin(laneOf[value[i]], i, f[2], f[3], "report")
    if (f[1] == "done" && f[2] in laneOf) complete(laneOf[f[2]], i, f[3])
    if (f[1] == "attr" && f[2] in laneOf) { askLane[++asks] = laneOf[f[2]]; askLine[asks] = i }
    if (f[1] == "wake") compare(i, f[2], f[3])
}

function startAnew(i,   lane) {
    for (lane = 1; lane <= lanes; lane++) if (!to[lane]) leave(lane, i)
    newest = 0
}

function admit(i, f,   lane) {
    lane = ++lanes
    laneOf[value[i]] = lane
    from[lane] = i; id[lane] = value[i]; fabric[lane] = f[3]; peer[lane] = f[4]; shortest[lane] = f[5]; longest[lane] = f[6]
    reported[lane] = LAST; retry[lane] = FIRST; fails[lane] = 0; seen[lane] = newest; heard[lane] = FIRST
    begin(lane, i, f[2], f[7], "priming")
}

# A bar from line i on: the lane opens "with the present watermark, event number and now".
function begin(lane, i, now, events, kind) {
    opened[lane] = instant(now); mark[lane] = newest; told[lane] = instant(events); stored[lane] = 0
    bar[lane] = ++bars
    barLane[bars] = lane; barFrom[bars] = i; barTo[bars] = 0; barKind[bars] = kind
}

function note(i,   lane) {
    newest = value[i]
    noted[i] = 1
    for (lane = 1; lane <= lanes; lane++) if (!to[lane] && !stored[lane]) { hitLane[++hits] = lane; hitLine[hits] = i }
}

function complete(lane, i, outcome,   k) {
    barTo[bar[lane]] = i
    barEnd[bar[lane]] = OUTCOME[outcome + 1]
    if (value[i] == 0) { leave(lane, i); return }
    stored[lane] = 1
    settle(lane, "retry", opened[lane])
    if (outcome == 2) {
        fails[lane] += fails[lane] < 255
        retry[lane] = retryOf(lane)
        stand(lane, "retry", retry[lane], i)
        return
    }
    fails[lane] = 0; retry[lane] = FIRST; seen[lane] = mark[lane]; heard[lane] = told[lane]
    if (outcome == 0) {
        for (k = 1; k <= 4; k++) settle(lane, KIND[k], opened[lane])
        reported[lane] = opened[lane]
    } else if (reported[lane] != LAST) return
    if (shortest[lane] > 0) stand(lane, "gate", gateOf(lane), i)
    stand(lane, "due", dueOf(lane, icdAfter[i]), i)
    if (plus(reported[lane], longest[lane]) <= LAST) stand(lane, "expiry", plus(reported[lane], longest[lane]), i)
}

function leave(lane, i,   k) {
    to[lane] = i
    if (!barTo[bar[lane]]) barTo[bar[lane]] = i
    for (k = 1; k <= 4; k++) settle(lane, KIND[k], when[i])
    delete laneOf[id[lane]]
}

# An instant of the lane, reckoned at line i; it stands until it is settled.
function stand(lane, kind, at, i) {
    standing[lane, kind] = ++marks
    markLane[marks] = lane; markKind[marks] = kind; markAt[marks] = at; markLine[marks] = i; markUntil[marks] = LAST
}

function settle(lane, kind, at) {
    if (standing[lane, kind]) markUntil[standing[lane, kind]] = at
    standing[lane, kind] = 0
}

# "the least of allowed (if a change or event is pending) or the later of allowed and due", held against the program's answer.
function compare(i, events, icd,   lane, comes, least) {
    least = LAST
    for (lane = 1; lane <= lanes; lane++) if (!to[lane] && stored[lane]) {
        comes = laterOf(gateOf(lane), retry[lane])
        if (newest == seen[lane] && heard[lane] >= instant(events)) comes = laterOf(comes, dueOf(lane, icd))
        if (comes < least) least = comes
    }
    if (least == instant(value[i])) return
    print "draw: line " i ": by the rules the next instant is " least ", and the answer says " value[i] > "/dev/stderr"
    wrong = 1
}
