# The list of a line, reckoned pixel by pixel. At step i the exact short coordinate is i * D / L away from the first end, D the signed
# difference there; its nearest whole number, a half to the larger, is the whole part of that and one half, rounded down.
# Called with -v x0= -v y0= -v x1= -v y1=.
function floor(a, b,    q) {
    q = int(a / b)
    return q * b > a ? q - 1 : q
}

function size(a) {
    return a < 0 ? -a : a
}

# one run, all pixels with one short coordinate
function add() {
    text = text across " " (last < first ? last : first) " " (size(last - first) + 1) "\n"
    runs++
}

BEGIN {
    along_y = size(y1 - y0) > size(x1 - x0)
    start = along_y ? y0 : x0
    long = along_y ? y1 - y0 : x1 - x0
    short_start = along_y ? x0 : y0
    short = along_y ? x1 - x0 : y1 - y0
    steps = size(long)
    way = long < 0 ? -1 : 1
    across = short_start
    first = last = start
    for (i = 1; i <= steps; i++) {
        here = short_start + floor(2 * i * short + steps, 2 * steps)
        if (here != across) {
            add()
            across = here
            first = start + way * i
        }
        last = start + way * i
    }
    add()
    ORS = ""
    print "axis " (along_y ? "y" : "x") " runs " runs "\n" text
}
