# Plays a case over and over in one script, each time with what comes cut elsewhere. Labels and moments go on from one
# time to the next, so that no time has to do with another. Writes that script, and the transcript that it yields.
#   awk -v size=N -v script=FILE -v transcript=FILE -f tests/lib/cuts.awk SCRIPT TRANSCRIPT
# With a size above 0 each delivery comes in pieces of so many bytes, and that once. With 0 one delivery comes in two,
# and that once for each place in each delivery.

FILENAME == ARGV[1] { line[++lines] = $0; next }
{ told[++tellings] = $0 }

END {
    if (size > 0) once_more(0, 0)
    else for (place = 1; place <= lines; place++) {
        count = read_bytes(line[place])
        for (at = 0; at < count; at++) once_more(place, at)
    }
}

# how many bytes a line brings: what is before them is in `front`, and each, as it is written, in `byte`
function read_bytes(text,    i, n, width) {
    n = 0
    if (!match(text, /^in [0-9]+ /)) return 0
    front = substr(text, 1, RLENGTH)
    for (i = RLENGTH + 1; i <= length(text); i += width) {
        width = substr(text, i, 1) != "\\" ? 1 : substr(text, i + 1, 1) == "x" ? 4 : 2
        byte[++n] = substr(text, i, width)
    }
    return n
}

# the case, with the delivery of that line cut there
function once_more(place, at,    i) {
    print "clock " times * 100000 > script
    for (i = 1; i <= lines; i++) {
        if (size > 0) in_pieces(line[i], size)
        else if (i == place) in_two(line[i], at)
        else print later(line[i]) > script
    }
    for (i = 1; i <= tellings; i++) print later(told[i]) > transcript
    times++
}

function in_two(text, at,    n) {
    n = read_bytes(text)
    print later(front) bytes(1, at) > script
    print later(front) bytes(at + 1, n) > script
}

function in_pieces(text, size,    i, n) {
    n = read_bytes(text)
    if (n == 0) print later(text) > script
    for (i = 1; i <= n; i += size) print later(front) bytes(i, i + size - 1 < n ? i + size - 1 : n) > script
}

# the bytes from one place to another, as they are written
function bytes(from, to,    i, text) {
    text = ""
    for (i = from; i <= to; i++) text = text byte[i]
    return text
}

# a line of this time
function later(text,    word) {
    if (!match(text, /^[a-z]+ [0-9]+/)) return text
    split(substr(text, 1, RLENGTH), word, " ")
    return word[1] " " (word[2] + times * (word[1] == "clock" ? 100000 : 100)) substr(text, RLENGTH + 1)
}
