# The drawing of what history.awk has found: a lane for each subscription, a column for each line, time from left to right.
# What an instant is and which one counts is not decided here.

BEGIN {
    WIDTH = 950; LEFT = 126; RIGHT = 850; TOP = 84; LANE = 74
    SLOT = 33                      # the width of a line's column, where there is room
    ROOM = 150                     # at least so much is left for the time between the lines
    COLOUR["report"] = "#0072b2"; COLOUR["priming"] = "#a86e00"; COLOUR["note"] = "#d55e00"
    COLOUR["gate"] = "#00795a"; COLOUR["retry"] = "#a0407a"; COLOUR["due"] = "#0072b2"; COLOUR["expiry"] = "#000000"
    ENDED = "stroke=\"#000000\" stroke-width=\"3\""
}

# ---- places

# Milliseconds as a plain number, counted from a round number before the start, so that none is lost near the last instant.
function ms(at) { return (high(at) - high(start)) * 1000000000000 + low(at) }

function isDrawn(m) { return markAt[m] <= markUntil[m] }

# The axis goes on behind the last line for marks that are not far.
function span(   m, wide, last) {
    begins = ms(start)
    last = lines ? ms(when[lines]) : begins
    wide = last > begins ? last - begins : 1000
    ends = last + wide / 8
    for (m = 1; m <= marks; m++) if (isDrawn(m) && ms(markAt[m]) > ends && ms(markAt[m]) <= last + wide / 2) ends = ms(markAt[m])
}

# Each line has a column of its own. Columns of one instant touch, and time stands still in their band.
function layOut(   i, x) {
    span()
    slot = lines * SLOT > RIGHT - LEFT - ROOM ? (RIGHT - LEFT - ROOM) / lines : SLOT
    scale = (RIGHT - 18 - LEFT - slot * lines) / (ends - begins)
    x = LEFT
    for (i = 1; i <= lines; i++) {
        if (i == 1 || when[i] != when[i - 1]) {
            if (i > 1) x += scale * (ms(when[i]) - ms(when[i - 1]))
            bandAt[++bands] = ms(when[i])
            bandFrom[bands] = x
        }
        column[i] = x + slot / 2
        x += slot
        bandTo[bands] = x
    }
    bottom = TOP + LANE * lanes
}

function xOf(t,   b) {
    if (!bands) return LEFT + scale * (t - begins)
    for (b = bands; b > 1 && bandAt[b] > t;) b--
    return t <= bandAt[b] ? bandFrom[b] : bandTo[b] + scale * (t - bandAt[b])
}

function middle(lane) { return TOP + LANE * (lane - 1) + 28 }

# ---- times in words

# A history near the last instant is told from there, another from 0; one in between from its first line.
function chooseUnit(   wide) {
    wide = ends - begins
    unit = wide <= 500 ? "ms" : wide <= 600000 ? "s" : wide <= 14400000 ? "min" : "h"
    per = unit == "ms" ? 1 : unit == "s" ? 1000 : 60000
    zero = 0
    if (high(start) > 0) { zero = begins; origin = " after the first line" }
    if (high(start) == high(LAST)) { zero = ms(LAST); origin = " from the last instant, 2^64 - 1 ms" }
}

# Whole hours where a plain number no longer tells milliseconds apart: in a history that spans 285,000 years.
function clockTime(t,   words) {
    if (t > 9000000000000000) return sprintf("%.0f h", t / 3600000)
    words = sprintf("%.0f:%02d", int(t / 3600000), int(t / 60000) % 60)
    if (t % 60000) words = words sprintf(":%02d", int(t / 1000) % 60)
    if (t % 1000) words = words sprintf(".%03d", t % 1000)
    return words
}

function inWords(t,   words) {
    t -= zero
    if (unit == "h") return (t < 0 ? "-" : "") clockTime(t < 0 ? -t : t)
    words = sprintf("%.3f", t / per)
    sub(/\.?0+$/, "", words)
    return words " " unit
}

function stamp(at) { return at == FIRST && begins > 0 ? "at once" : at == LAST ? "last instant" : inWords(ms(at)) }

# ---- shapes

function box(x, y, w, h, look) { printf "<rect x=\"%.1f\" y=\"%.1f\" width=\"%.1f\" height=\"%.1f\" %s/>\n", x, y, w, h, look }

function stroke(x1, y1, x2, y2, look) { printf "<line x1=\"%.1f\" y1=\"%.1f\" x2=\"%.1f\" y2=\"%.1f\" %s/>\n", x1, y1, x2, y2, look }

function write(x, y, anchor, words, look) {
    printf "<text x=\"%.1f\" y=\"%.1f\" text-anchor=\"%s\" %s>%s</text>\n", x, y, anchor, look, words
}

function bold(colour) { return "font-weight=\"bold\" fill=\"" colour "\"" }

function small(kind) { return "font-size=\"9\" fill=\"" COLOUR[kind] "\"" }

function lined(kind) { return "stroke=\"" COLOUR[kind] "\" stroke-width=\"1.5\"" }

function barLook(kind) { return (kind == "report" ? "fill=\"#b9dcf2\" " : "fill=\"#fff2d6\" stroke-dasharray=\"4 2\" ") lined(kind) }

function flag(x, top, foot) {
    stroke(x, top, x, foot, "stroke-dasharray=\"2 3\" " lined("note"))
    printf "<path d=\"M%.1f %.1fl-4 -6h8z\" fill=\"%s\"/>\n", x, top + 4, COLOUR["note"]
}

function dot(x, y) { printf "<circle cx=\"%.1f\" cy=\"%.1f\" r=\"4.5\" fill=\"%s\" stroke=\"#ffffff\"/>\n", x, y, COLOUR["note"] }

# Each kind has a shape of its own: an opening gate, a ring, a diamond, a cross.
function glyph(kind, x, y) {
    if (kind == "gate") printf "<path d=\"M%.1f %.1fv14m0 -12l6 5l-6 5z\" fill=\"%s\" %s/>\n", x, y - 7, COLOUR[kind], lined(kind)
    if (kind == "retry") printf "<circle cx=\"%.1f\" cy=\"%.1f\" r=\"4\" fill=\"#ffffff\" %s/>\n", x, y, lined(kind)
    if (kind == "due") printf "<path d=\"M%.1f %.1fl5 6l-5 6l-5 -6z\" fill=\"%s\"/>\n", x, y - 6, COLOUR[kind]
    if (kind == "expiry") printf "<path d=\"M%.1f %.1fl8 8m0 -8l-8 8\" stroke=\"%s\" stroke-width=\"2.5\"/>\n", x - 4, y - 4, COLOUR[kind]
}

# ---- the picture

function picture(   i, height) {
    layOut()
    chooseUnit()
    height = bottom + 84
    printf "<svg xmlns=\"http://www.w3.org/2000/svg\" width=\"%d\" height=\"%d\" viewBox=\"0 0 %d %d\"", WIDTH, height, WIDTH, height
    print " font-family=\"sans-serif\" font-size=\"10\">"
    box(0, 0, WIDTH, height, "fill=\"#ffffff\"")
    for (i = 1; i <= bands; i++) box(bandFrom[i], 20, bandTo[i] - bandFrom[i], bottom - 20, "fill=\"#f0f0f0\"")
    drawHeads()
    for (i = 1; i <= lanes; i++) drawLane(i)
    for (i = 1; i <= bars; i++) drawBar(i)
    for (i = 1; i <= lines; i++) if (i in noted) flag(column[i], 72, bottom)
    for (i = 1; i <= hits; i++) dot(column[hitLine[i]], middle(hitLane[i]))
    for (i = 1; i <= marks; i++) if (isDrawn(i)) drawMark(i)
    for (i = 1; i <= asks; i++) write(column[askLine[i]], middle(askLane[i]) + 4, "middle", yesNo(value[askLine[i]]), bold("#000000"))
    drawAxis()
    drawLegend(8, bottom + 52)
    print "</svg>"
}

function yesNo(told) { return told == 1 ? "yes" : "no" }

function answer(word, told) {
    if (word == "add") return "id " told
    if (word == "note") return "#" told
    if (word == "report") return told == 0 ? "none" : "id " told
    if (word == "done") return told == 1 ? "kept" : "ended"
    return word == "attr" ? yesNo(told) : told
}

# Above each band its instant; above each column the line's number, its word and its answer. None of it where the columns are too narrow.
function drawHeads(   i, x) {
    if (slot < 22) return
    write(8, 14, "start", "at", "")
    write(8, 32, "start", "line", "")
    write(8, 56, "start", "answer", "")
    write(8, 68, "start", "next instant", "")
    for (i = 1; i <= bands; i++) {
        if (bandFrom[i] > x) x = bandFrom[i]
        write(x, 14, "start", inWords(bandAt[i]), bold("#000000"))
        x += 6.6 * length(inWords(bandAt[i])) + 6
    }
    for (i = 1; i <= lines; i++) if (i in code) drawHead(i, column[i])
}

function drawHead(i, x,   f) {
    split(line[i], f, ",")
    printf "<g font-size=\"8.5\"><title>line %d: %s</title>\n", i, code[i] == 8 ? "bad" : line[i]
    write(x, 32, "middle", i, bold("#000000"))
    write(x, 44, "middle", code[i] == 8 ? "bad" : f[1], "")
    if (code[i] > 0) write(x, 56, "middle", "no. " code[i], bold("#c00000"))
    else if (f[1] == "wake") write(x, 68, "middle", stamp(instant(value[i])), bold("#000000"))
    else write(x, 56, "middle", answer(f[1], value[i]), "")
    print "</g>"
}

function drawLane(lane,   y, x) {
    y = middle(lane)
    x = to[lane] ? column[to[lane]] : RIGHT
    stroke(0, TOP + LANE * (lane - 1), WIDTH, TOP + LANE * (lane - 1), "stroke=\"#cccccc\"")
    stroke(column[from[lane]], y, x, y, "stroke=\"#888888\"")
    if (to[lane]) stroke(x, y - 17, x, y + 17, ENDED)
    write(8, y - 7, "start", "id " id[lane], "font-size=\"13\" font-weight=\"bold\"")
    write(8, y + 7, "start", "fabric " fabric[lane] ", peer " peer[lane], "")
    write(8, y + 20, "start", "min " shortest[lane] " s, max " longest[lane] " s", "")
}

function drawBar(b,   x, w, y) {
    y = middle(barLane[b])
    x = column[barFrom[b]]
    w = (barTo[b] ? column[barTo[b]] : RIGHT) - x
    box(x, y - 10, w, 20, barLook(barKind[b]))
    if (barEnd[b] != "") write(x + w - 2, y - 13, "end", barEnd[b], small(barKind[b]))
}

# What lies beyond the axis is told at its right end.
function drawMark(m,   x, y, words) {
    y = middle(markLane[m])
    words = markKind[m] " " stamp(markAt[m])
    if (ms(markAt[m]) > ends) {
        write(RIGHT + 6, y - 8 + 12 * edge[markLane[m]]++, "start", words " &#8594;", small(markKind[m]))
        return
    }
    x = markAt[m] <= start ? column[markLine[m]] + 12 * ++atOnce[markLine[m]] : xOf(ms(markAt[m]))
    glyph(markKind[m], x, y)
    label(markLane[m], x, y + 21, words, small(markKind[m]))
}

# In the first of three rows where it touches no other label; where there is none it is left out.
function label(lane, x, y, words, look,   row, l, half) {
    half = length(words) * 2.5 + 2
    for (row = 0; row < 3; row++) {
        for (l = labels[lane, row]; l > 0; l--) if (labelTo[lane, row, l] > x - half && labelFrom[lane, row, l] < x + half) break
        if (l > 0) continue
        l = ++labels[lane, row]
        labelFrom[lane, row, l] = x - half
        labelTo[lane, row, l] = x + half
        write(x, y + 11 * row, "middle", words, look)
        return
    }
}

function drawAxis(   step, t, x) {
    stroke(LEFT, bottom, RIGHT, bottom, "stroke=\"#000000\"")
    for (step = 1; step * scale < 6 * length(inWords(ends)) + 12;) step = nextStep(step)
    for (t = zero - int((zero - begins) / step) * step; t <= ends; t += step) if (t >= begins) {
        x = xOf(t)
        stroke(x, bottom, x, bottom + 5, "stroke=\"#000000\"")
        write(x, bottom + 17, "middle", inWords(t), "")
    }
    write(RIGHT, bottom + 32, "end", "time" origin (unit == "h" ? " (h:mm)" : "") "; it stands still in a grey band", "fill=\"#555555\"")
}

# The next longer step that reads well: 1, 2 and 5 of each power of ten up to 20 s, then the steps of a clock.
function nextStep(step,   i, n, clock) {
    n = split("20000 30000 60000 120000 300000 600000 1800000 3600000 7200000 14400000 28800000", clock, " ")
    for (i = 1; i < n; i++) if (clock[i] == step) return clock[i + 1]
    return step * (step < 20000 && substr(step, 1, 1) == 2 ? 2.5 : 2)
}

function drawLegend(left, y,   x) {
    box(left, y - 8, 22, 10, barLook("report")); x = legend(left + 28, y, "open report")
    box(x, y - 8, 22, 10, barLook("priming")); x = legend(x + 28, y, "priming")
    flag(x + 5, y - 7, y + 5); x = legend(x + 16, y, "change noted (#)")
    dot(x + 5, y - 3); x = legend(x + 16, y, "change while it is open")
    write(x, y, "start", "yes / no", bold("#000000")); legend(x + 54, y, "is this attribute to be told?")
    y += 20
    glyph("gate", left + 4, y - 3); x = legend(left + 16, y, "gate: may speak from here")
    glyph("due", x + 5, y - 3); x = legend(x + 16, y, "due: speaks though nothing changed")
    glyph("retry", x + 5, y - 3); x = legend(x + 16, y, "retry: may try again from here")
    glyph("expiry", x + 5, y - 3); x = legend(x + 16, y, "expiry: it is over")
    stroke(x + 3, y - 10, x + 3, y + 3, ENDED); legend(x + 12, y, "subscription ended")
}

function legend(x, y, words) { write(x, y, "start", words, ""); return x + 5.6 * length(words) + 20 }
