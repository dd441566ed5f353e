# Draws the crates of crates.txt as an SVG picture. `programs` names those that are programs, between spaces.
# Each crate stands a row below the lowest of its users; what is reached through another crate has no arrow of its own. A long
# arrow has a place of its own, narrow, in each row that it passes, so no arrow runs through a box. Rows are put in order,
# and places moved, so that arrows cross little and run straight: always the same way, so the same crates give the same picture.

BEGIN { BOX = 80; HIGH = 30; BETWEEN = 58; GAP = 16; MARGIN = 12 }
{ sub(/#.*/, "") }
/:/ {
    name[++nodes] = $1 # behind the name may stand what is built of it
    sub(/:.*/, "", name[nodes])
    number[name[nodes]] = nodes
    stands_on[nodes] = substr($0, index($0, ":") + 1)
    if (BOX < 9 * length(name[nodes]) + 20) BOX = 9 * length(name[nodes]) + 20
}

END {
    crates = nodes
    find_arrows()
    find_rows()
    add_places()
    put_in_order()
    move_places()
    draw()
}

# ---- which arrows there are, and in which row a crate stands

function find_arrows(    a, b, c, i, words) {
    for (a = 1; a <= crates; a++)
        for (i = split(stands_on[a], words, " "); i > 0; i--)
            if (words[i] in number) { direct[a, number[words[i]]]; below[a, number[words[i]]] }
    for (c = 1; c <= crates; c++)
        for (a = 1; a <= crates; a++)
            for (b = 1; b <= crates; b++)
                if ((a, c) in below && (c, b) in below) below[a, b]
    for (a = 1; a <= crates; a++)
        for (b = 1; b <= crates; b++)
            if ((a, b) in direct && !through_another(a, b)) { arrows++; from[arrows] = a; to[arrows] = b }
}

function through_another(a, b,    c) {
    for (c = 1; c <= crates; c++) if ((a, c) in direct && (c, b) in below) return 1
    return 0
}

function find_rows(    again, e) {
    for (again = 1; again <= crates; again++)
        for (e = 1; e <= arrows; e++)
            if (row[to[e]] <= row[from[e]]) { row[to[e]] = row[from[e]] + 1; if (row[to[e]] > rows) rows = row[to[e]] }
}

# A link goes from a place to one in the row below; an arrow is one link, or several through places of its own.
function add_places(    a, e, r, last) {
    for (a = 1; a <= crates; a++) { place_in_row(a, row[a] + 0); half[a] = BOX / 2 }
    for (e = 1; e <= arrows; e++) {
        last = from[e]
        for (r = row[last] + 1; r < row[to[e]]; r++) {
            half[++nodes] = 4
            place_in_row(nodes, r)
            add_link(e, last, nodes)
            last = nodes
        }
        add_link(e, last, to[e])
    }
}
function place_in_row(a, r) { row[a] = r; at[r, ++count[r]] = a; position[a] = count[r] }
function add_link(e, a, b) {
    links++
    upper[links] = a; lower[links] = b; arrow_of[links] = e
    straight[links] = a > crates && b > crates ? 1000 : a > crates || b > crates ? 2 : 1
}

# ---- the order in each row: by the middle of what it is linked with, then by neighbours that are better exchanged

function put_in_order(    sweep, r, best) {
    best = crossings()
    keep()
    for (sweep = 1; sweep <= 20; sweep++) {
        for (r = 1; r <= rows; r++) sort_row(r, 1)
        for (r = rows - 1; r >= 0; r--) sort_row(r, 0)
        if (crossings() < best) { best = crossings(); keep() }
    }
    for (r = 1; r <= nodes; r++) position[r] = kept[r]
    for (r = 1; r <= nodes; r++) at[row[r], position[r]] = r
    while (exchanged()) best = crossings()
}
function keep(    a) { for (a = 1; a <= nodes; a++) kept[a] = position[a] }

function crossings(    e, f, sum) {
    for (e = 1; e <= links; e++)
        for (f = e + 1; f <= links; f++)
            if (row[upper[e]] == row[upper[f]] && (position[upper[e]] - position[upper[f]]) * (position[lower[e]] - position[lower[f]]) < 0) sum++
    return sum + 0
}

function sort_row(r, by_upper,    i, j, a, e, sum, n, middle) {
    for (i = 1; i <= count[r]; i++) {
        a = at[r, i]; sum = n = 0
        for (e = 1; e <= links; e++) {
            if (by_upper && lower[e] == a) { sum += position[upper[e]]; n++ }
            if (!by_upper && upper[e] == a) { sum += position[lower[e]]; n++ }
        }
        middle[a] = n ? sum / n : i
    }
    for (i = 2; i <= count[r]; i++)
        for (j = i; j > 1 && middle[at[r, j]] < middle[at[r, j - 1]]; j--) exchange(r, j)
}
function exchange(r, j,    a) {
    a = at[r, j]; at[r, j] = at[r, j - 1]; at[r, j - 1] = a
    position[at[r, j]] = j; position[at[r, j - 1]] = j - 1
}
function exchanged(    r, j, before, any) {
    before = crossings()
    for (r = 0; r <= rows; r++)
        for (j = 2; j <= count[r]; j++) {
            exchange(r, j)
            if (crossings() < before) { before = crossings(); any = 1 } else exchange(r, j)
        }
    return any
}

# ---- where a place is: as near to the middle of its links as the room that its neighbours need allows

function move_places(    r, i, turn, least) {
    for (r = 0; r <= rows; r++) for (i = 1; i <= count[r]; i++) x[at[r, i]] = i > 1 ? x[at[r, i - 1]] + room(r, i) : 0
    for (turn = 1; turn <= 1000; turn++) {
        for (r = 0; r <= rows; r++) settle(r)
        for (r = rows; r >= 0; r--) settle(r)
    }
    least = x[at[0, 1]] - half[at[0, 1]]
    for (i = 1; i <= nodes; i++) if (x[i] - half[i] < least) least = x[i] - half[i]
    for (i = 1; i <= nodes; i++) {
        x[i] = int(x[i] - least + MARGIN + 0.5)
        if (x[i] + half[i] + MARGIN > wide) wide = x[i] + half[i] + MARGIN
    }
}
function room(r, i) { return half[at[r, i - 1]] + half[at[r, i]] + GAP }

# Wishes, less the room that the places on their left take, must not fall: a run that falls takes its mean.
function settle(r,    i, e, a, sum, weight, before, runs, mean, heavy, size, k) {
    for (i = 1; i <= count[r]; i++) {
        a = at[r, i]; sum = weight = 0
        for (e = 1; e <= links; e++) {
            if (upper[e] == a) { sum += straight[e] * x[lower[e]]; weight += straight[e] }
            if (lower[e] == a) { sum += straight[e] * x[upper[e]]; weight += straight[e] }
        }
        if (i > 1) before += room(r, i)
        mean[++runs] = (weight ? sum / weight : x[a]) - before
        heavy[runs] = weight ? weight : 1; size[runs] = 1
        while (runs > 1 && mean[runs - 1] > mean[runs]) {
            mean[runs - 1] = (mean[runs - 1] * heavy[runs - 1] + mean[runs] * heavy[runs]) / (heavy[runs - 1] + heavy[runs])
            heavy[runs - 1] += heavy[runs]; size[runs - 1] += size[runs]
            runs--
        }
    }
    before = i = 0
    for (k = 1; k <= runs; k++)
        for (e = 1; e <= size[k]; e++) { i++; if (i > 1) before += room(r, i); x[at[r, i]] = mean[k] + before }
}

# ---- the picture

function top(r) { return MARGIN + r * (HIGH + BETWEEN) }

# where on a box's edge a link begins or ends: those of one edge stand side by side
function port(e, a, is_upper,    f, other, own, n, before, apart) {
    if (a > crates) return x[a]
    own = is_upper ? lower[e] : upper[e]
    for (f = 1; f <= links; f++) {
        if ((is_upper ? upper[f] : lower[f]) != a) continue
        n++
        other = is_upper ? lower[f] : upper[f]
        if (x[other] < x[own] || (x[other] == x[own] && f < e)) before++
    }
    apart = n > 1 && (BOX - 16) / (n - 1) < 13 ? (BOX - 16) / (n - 1) : 13
    return x[a] + int((before - (n - 1) / 2) * apart + 0.5)
}

function curve(e,    x1, y1, x2, y2) {
    x1 = port(e, upper[e], 1); y1 = top(row[upper[e]]) + HIGH
    x2 = port(e, lower[e], 0); y2 = top(row[lower[e]])
    return sprintf("%d,%d C%d,%d %d,%d %d,%d", x1, y1, x1, y1 + BETWEEN / 2, x2, y2 - BETWEEN / 2, x2, y2)
}

function draw(    e, a, path, high) {
    high = top(rows) + HIGH + MARGIN
    # what the tints mean stands at the lower left, below the picture where that place is taken
    for (a = 1; a <= nodes; a++) if (row[a] >= rows - 1 && x[a] - half[a] < MARGIN + BOX + GAP) { high += 2 * HIGH + 30; break }
    printf "<svg xmlns=\"http://www.w3.org/2000/svg\" width=\"%d\" height=\"%d\" viewBox=\"0 0 %d %d\" role=\"img\">\n", wide, high, wide, high
    print "<title>The crates, and what each stands on</title>"
    print "<style>"
    print "text { font: 14px ui-monospace, Menlo, Consolas, 'DejaVu Sans Mono', monospace; fill: #1f2933; }"
    print ".arrow { fill: none; stroke: #8b949e; stroke-width: 1.3; } .head { fill: #8b949e; }"
    print ".library { fill: #dce8f7; stroke: #7796bd; } .program { fill: #fbe6c8; stroke: #c4934d; }"
    print "</style>"
    print "<defs><marker id=\"head\" viewBox=\"0 0 8 8\" refX=\"7.5\" refY=\"4\" markerWidth=\"7\" markerHeight=\"7\" orient=\"auto\"><path class=\"head\" d=\"M0,0.5 L8,4 L0,7.5 Z\"/></marker></defs>"
    for (e = 1; e <= links; e++)
        path[arrow_of[e]] = path[arrow_of[e]] (path[arrow_of[e]] == "" ? "M" : " L") curve(e)
    for (e = 1; e <= arrows; e++) printf "<path class=\"arrow\" marker-end=\"url(#head)\" d=\"%s\"/>\n", path[e]
    for (a = 1; a <= crates; a++) box(name[a], x[a], top(row[a]), index(programs, " " name[a] " ") ? "program" : "library")
    box("program", MARGIN + BOX / 2, high - MARGIN - 2 * HIGH - 10, "program")
    box("library", MARGIN + BOX / 2, high - MARGIN - HIGH, "library")
    print "</svg>"
}
function box(text, middle, y, class) {
    printf "<rect class=\"%s\" x=\"%d\" y=\"%d\" width=\"%d\" height=\"%d\" rx=\"7\"/>", class, middle - BOX / 2, y, BOX, HIGH
    printf "<text x=\"%d\" y=\"%d\" text-anchor=\"middle\">%s</text>\n", middle, y + HIGH / 2 + 5, text
}
