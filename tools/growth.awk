# Draws the lines of bench/growth as docs/growth.svg: time of a read against the size of the chip, both axes by powers of two.
BEGIN { FS = "\t"; left = 90; right = 30; top = 40; wide = 640; high = 380 }
{ n++; size[n] = $1; y[1, n] = $2; y[2, n] = $3; y[3, n] = $4 }

function log2(x) { return log(x) / log(2) }
function px(bytes) { return left + (log2(bytes) - 15) / (30.2 - 15) * wide }
function py(us) { return top + high - (log2(us) + 2) / (18 + 2) * high }
function text(x, yy, anchor, what) { printf "<text x=\"%.1f\" y=\"%.1f\" text-anchor=\"%s\">%s</text>\n", x, yy, anchor, what }

# One line, and its name in the corner that the lines leave free.
function line(k, colour, dash, name,    i, x, yy) {
    printf "<polyline fill=\"none\" stroke=\"%s\" stroke-width=\"2\" stroke-dasharray=\"%s\" points=\"", colour, dash
    for (i = 1; i <= n; i++) printf "%.1f,%.1f ", px(size[i]), py(y[k, i])
    print "\"/>"
    x = left + wide - 330; yy = top + high - 80 + 22 * ++named
    printf "<line x1=\"%.1f\" y1=\"%.1f\" x2=\"%.1f\" y2=\"%.1f\" stroke=\"%s\" stroke-width=\"2\" stroke-dasharray=\"%s\"/>\n", x, yy - 4, x + 30, yy - 4, colour, dash
    text(x + 38, yy, "start", name)
}

END {
    printf "<svg xmlns=\"http://www.w3.org/2000/svg\" width=\"%d\" height=\"%d\" viewBox=\"0 0 %d %d\" font-family=\"sans-serif\" font-size=\"13\">\n", \
        left + wide + right, top + high + 60, left + wide + right, top + high + 60
    print "<rect width=\"100%\" height=\"100%\" fill=\"white\"/>"
    text(left, 22, "start", "Time of a read of one sector, by the size of the chip")
    for (e = 16; e <= 30; e += 2) {
        printf "<line x1=\"%.1f\" y1=\"%d\" x2=\"%.1f\" y2=\"%d\" stroke=\"#ddd\"/>\n", px(2 ^ e), top, px(2 ^ e), top + high
        text(px(2 ^ e), top + high + 20, "middle", e < 20 ? 2 ^ (e - 10) " KiB" : e < 30 ? 2 ^ (e - 20) " MiB" : 2 ^ (e - 30) " GiB")
    }
    for (us = 1; us <= 100000; us *= 10) {
        printf "<line x1=\"%d\" y1=\"%.1f\" x2=\"%d\" y2=\"%.1f\" stroke=\"#ddd\"/>\n", left, py(us), left + wide, py(us)
        text(left - 8, py(us) + 4, "end", us < 1000 ? us " µs" : us / 1000 " ms")
    }
    line(1, "#c0392b", "", "empty board: every byte is read")
    line(3, "#333", "5 4", "limit: the fastest loop over the same bytes")
    line(2, "#2471a3", "", "full board: the spare bytes are read")
    text(left + wide / 2, top + high + 46, "middle", "bytes of chip")
    print "</svg>"
}
