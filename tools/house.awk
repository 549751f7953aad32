# Draws the house from crates.txt: a band for each floor, the ground at the bottom, a box for each crate above those that it uses, and a line to each crate
# that it uses itself. A line is left out where a path of other lines says it already.
/^# ---- / {
    floors++
    line = substr($0, 8)
    title[floors] = substr(line, 1, index(line, ":") - 1)
    about[floors] = substr(line, index(line, ":") + 2)
    next
}
/^#/ || NF == 0 { next }
{
    sub(/ staticlib:/, ":") # a static library is drawn as any other crate
    name = $1
    sub(/:$/, "", name)
    order[++crates] = name
    floor[name] = floors
    for (i = 2; i <= NF; i++)
        if ($i in floor) {
            uses[name] = uses[name] " " $i
            if (floor[$i] == floors && depth[$i] + 1 > depth[name]) depth[name] = depth[$i] + 1
            # what it reaches: each crate that it uses, and what that one reaches
            split(reach[$i], far, " ")
            reach[name] = reach[name] " " $i
            for (k in far) reach[name] = reach[name] " " far[k]
        }
    depth[name] += 0
    if (depth[name] > deepest[floors]) deepest[floors] = depth[name]
    row = floors "," depth[name]
    rows[row] = rows[row] " " name
    count[row]++
}
function text(x, y, size, anchor, weight, fill, s) {
    printf "<text x=\"%d\" y=\"%d\" font-size=\"%s\" text-anchor=\"%s\" font-weight=\"%s\" fill=\"%s\">%s</text>\n", x, y, size, anchor, weight, fill, s
}
# Where the crates that a crate uses stand, on the average: the drawn ones alone.
function middle(name,    n, i, k, one, said, sum, some) {
    n = split(uses[name], one, " ")
    for (i = 1; i <= n; i++) {
        said = 0
        for (k = 1; k <= n; k++)
            if (k != i && index(reach[one[k]] " ", " " one[i] " ")) said = 1
        if (!said) { sum += at_x[one[i]]; some++ }
    }
    return some ? sum / some : across / 2
}
# Gives the crates of a row their places.
function place(f, d,    n, i, k, in_row, want, swap, room) {
    n = split(rows[f "," d], in_row, " ")
    for (i = 1; i <= n; i++) want[in_row[i]] = middle(in_row[i])
    for (i = 2; i <= n; i++)
        for (k = i; k > 1 && want[in_row[k]] < want[in_row[k - 1]]; k--) { swap = in_row[k]; in_row[k] = in_row[k - 1]; in_row[k - 1] = swap }
    room = (across - left) / n
    for (i = 1; i <= n; i++) at_x[in_row[i]] = left + (i - 0.5) * room - wide / 2
    # a crate alone in its row stands aside of what it uses, so that lines from above pass it
    if (n == 1) {
        at_x[in_row[1]] = want[in_row[1]] + (d % 2 ? 150 : -150)
        if (at_x[in_row[1]] < left) at_x[in_row[1]] = left
        if (at_x[in_row[1]] > across - wide - 10) at_x[in_row[1]] = across - wide - 10
    }
}
END {
    wide = 118; high = 26; step = 50; left = 30; across = 1120
    # from the ground up: each row in the order of what its crates use, spread over the width
    for (f = 1; f <= floors; f++)
        for (d = 0; d <= deepest[f]; d++) place(f, d)
    y = 70
    for (f = floors; f >= 1; f--) {
        top[f] = y
        y += 30
        for (d = deepest[f]; d >= 0; d--) {
            n = split(rows[f "," d], in_row, " ")
            for (i = 1; i <= n; i++) at_y[in_row[i]] = y
            y += step
        }
        bottom[f] = y - step + high + 12
        y = bottom[f] + 10
    }
    printf "<svg xmlns=\"http://www.w3.org/2000/svg\" viewBox=\"0 0 %d %d\" width=\"%d\" height=\"%d\" font-family=\"DejaVu Sans, Helvetica, Arial, sans-serif\">\n", across + 10, y, across + 10, y
    print "<title>The crates, floor by floor</title>"
    printf "<rect width=\"%d\" height=\"%d\" fill=\"#ffffff\"/>\n", across + 10, y
    text(20, 30, 17, "start", "bold", "#1b1f24", "The house: " crates " crates on " floors " floors")
    text(20, 50, 13, "start", "normal", "#57606a", "A crate stands above those that it uses. A line is left out where other lines say it.")
    for (f = 1; f <= floors; f++) {
        printf "<rect x=\"10\" y=\"%d\" width=\"%d\" height=\"%d\" fill=\"%s\" stroke=\"#d0d7de\" stroke-width=\"1\"/>\n", top[f], across - 10, bottom[f] - top[f], f % 2 ? "#f6f8fa" : "#ffffff"
        text(20, top[f] + 18, 13, "start", "bold", "#1b1f24", title[f])
        text(20 + 11 * length(title[f]) + 10, top[f] + 18, 11, "start", "normal", "#57606a", about[f])
    }
    for (c = 1; c <= crates; c++) {
        name = order[c]
        n = split(uses[name], one, " ")
        for (i = 1; i <= n; i++) {
            said = 0
            for (k = 1; k <= n; k++)
                if (k != i && index(reach[one[k]] " ", " " one[i] " ")) said = 1
            if (said) continue
            x1 = at_x[name] + wide / 2; y1 = at_y[name] + high
            x2 = at_x[one[i]] + wide / 2; y2 = at_y[one[i]]
            printf "<path d=\"M%d %d C %d %d, %d %d, %d %d\" fill=\"none\" stroke=\"#8c959f\" stroke-width=\"1\"/>\n", x1, y1, x1, y1 + 18, x2, y2 - 18, x2, y2
        }
    }
    for (c = 1; c <= crates; c++) {
        name = order[c]
        printf "<rect x=\"%d\" y=\"%d\" width=\"%d\" height=\"%d\" rx=\"3\" fill=\"#ddf4ff\" stroke=\"#57606a\" stroke-width=\"1\"/>\n", at_x[name], at_y[name], wide, high
        text(at_x[name] + wide / 2, at_y[name] + 17, 12, "middle", "normal", "#1b1f24", name)
    }
    print "</svg>"
}
