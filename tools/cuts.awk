# Draws Board T's sixth write, cut after each of its operations: a row for each cut, with the two blocks that it is about as they then stand, and what a start finds. What it finds is read
# from `cut_said`, which is proved to be what the rules compute: no_copy (block 0 stays, with how many erases), copy_alone (block 3 stays, old content), new_found (new content).
/^cut_said =/ { inside = 1; next }
inside && NF == 0 { inside = 0 }
inside && $1 != "--" {
    for (i = 1; i <= NF; i++) {
        word = $i
        gsub(/[()]/, "", word)
        if (word == "no_copy") found[rows++] = "0 " $(i + 1)
        if (word == "copy_alone") found[rows++] = "3 old"
        if (word == "new_found") found[rows++] = "3 new"
    }
}
function text(x, y, size, anchor, weight, fill, s) {
    printf "<text x=\"%d\" y=\"%d\" font-size=\"%s\" text-anchor=\"%s\" font-weight=\"%s\" fill=\"%s\">%s</text>\n", x, y, size, anchor, weight, fill, s
}
# A frame of two pages, of which the first `pages` are programmed.
function frame(x, y, pages, fill, label,    k) {
    for (k = 0; k < 2; k++)
        printf "<rect x=\"%d\" y=\"%d\" width=\"50\" height=\"34\" fill=\"%s\" stroke=\"#57606a\" stroke-width=\"1\"%s/>\n", \
            x + 50 * k, y, k < pages ? fill : "#ffffff", k < pages ? "" : " stroke-dasharray=\"3 3\""
    if (pages) text(x + (pages == 2 ? 50 : 25), y + 21, 11, "middle", "normal", dark, pages == 2 ? label : "begun")
}
function block(x, y, name, said, mark) {
    text(x, y - 7, 12, "start", "bold", mark, name)
    if (said != "") text(x + 58, y - 7, 12, "start", "normal", mark, said)
}
END {
    dark = "#1b1f24"; grey = "#57606a"; green = "#dafbe1"; blue = "#ddf4ff"; old = "#eaeef2"; stays = "#1a7f37"; goes = "#cf222e"
    split("the copy, first page|the copy, second page|block 0 erased|the new frame, first page|the new frame, second page", op, "|")
    high = 84; top = 118; cuts = rows - 1
    printf "<svg xmlns=\"http://www.w3.org/2000/svg\" viewBox=\"0 0 960 %d\" width=\"960\" height=\"%d\" font-family=\"DejaVu Sans, Helvetica, Arial, sans-serif\">\n", top + high * cuts + 8, top + high * cuts + 8
    print "<title>Board T's sixth write, cut after each of its operations, and what a start then finds</title>"
    printf "<rect width=\"960\" height=\"%d\" fill=\"#ffffff\"/>\n", top + high * cuts + 8
    text(20, 30, 17, "start", "bold", dark, "A write that reclaims, cut after each of its operations")
    text(20, 50, 12.5, "start", "normal", grey, "Board T's sixth write gives LBA 5, of cluster 2, the byte 22 in place of 18, and reclaims virtual block 0:")
    text(20, 67, 12.5, "start", "normal", grey, "its valid frame is copied to block 3, block 0 is erased, and the new frame goes behind the copy.")
    text(20, 84, 12.5, "start", "normal", grey, "At each cut one of the two blocks has all that was accepted, and the start keeps that one.")
    for (k = 0; k < cuts; k++) {
        y = top + high * k
        split(found[k], f, " ")
        if (k) printf "<line x1=\"20\" y1=\"%d\" x2=\"940\" y2=\"%d\" stroke=\"#d0d7de\"/>\n", y - 14, y - 14
        text(20, y + 24, 13, "start", "bold", dark, k ? k ". " op[k] : "before the first")
        text(20, y + 42, 12, "start", "normal", grey, "budget " k)
        block(250, y + 16, "block 0", k >= 3 ? "erased" : "", k >= 3 ? grey : stays)
        frame(250, y + 16, k >= 3 ? 0 : 2, old, "cluster 0, old")
        frame(356, y + 16, k >= 3 ? 0 : 2, green, "cluster 2: 18")
        block(490, y + 16, "block 3", "", f[1] == 3 ? stays : f[2] == 1 ? goes : grey)
        frame(490, y + 16, k > 2 ? 2 : k, green, "cluster 2: 18")
        frame(596, y + 16, k > 3 ? k - 3 : 0, blue, "cluster 2: 22")
        text(724, y + 24, 12.5, "start", "bold", stays, "the start keeps block " f[1])
        text(724, y + 41, 12.5, "start", "normal", f[1] == 0 && f[2] == 1 ? goes : grey, f[1] == 0 && f[2] == 1 ? "and erases block 3, not full" : "and erases nothing")
        text(724, y + 58, 12.5, "start", "normal", dark, f[2] == "new" ? "LBA 5 reads 22: wholly new" : "LBA 5 reads 18: wholly old")
    }
    print "</svg>"
}
