# Plays each row of a table of bytes in all its ways, as one script, and writes the transcript that it should yield.
#   awk -v settings=FILE -v transcript=FILE -f tests/lib/bytes.awk tests/tables/heads.tsv > SCRIPT
# Bytes are written as in scripts, and {TEXT*N} is N times TEXT. A label is the row's line, then the way, then who it is:
# so a difference shows which row it is, and how that was cut.

BEGIN {
    FS = "\t"
    pair = "Authorization: Basic c291cmNlOmE=\\r\\n"
}

/^#/ { next }
FILENAME ~ /heads[.]tsv$/ { play_head($1, written_out($2), $3) }
FILENAME ~ /bodies[.]tsv$/ { play_body($1, $2, written_out($3), $4) }
FILENAME ~ /blocks[.]tsv$/ { play_blocks($1, $2, written_out($3), written_out($4)) }
FILENAME ~ /cleaned_texts[.]tsv$/ { play_text(written_out($1), written_out($2), written_out($3)) }

# A head, cut once at each of its last 300 places, and what comes behind it.
function play_head(told, head, rest,    n, cut) {
    n = read_bytes(head)
    for (cut = n > 300 ? n - 300 : 0; cut == 0 || cut < n; cut++) {
        begin(n - cut)
        print "in " source " " bytes(1, cut)
        mark()
        print "in " source " " bytes(cut + 1, n) rest
        if (told == "feeds") {
            out(source, "HTTP/1.0 200 OK\\r\\n\\r\\n")
            listen("/a")
            draw(rest)
            leave(listener)
            leave(source)
        } else if (told == "more") leave(source)
        else deny(source, told)
    }
}

# A body in pieces of each size to 8, and cut once at each place; a long one in pieces of 1 and of 7.
function play_body(told, framing, body, rest,    n, size) {
    n = read_bytes(body)
    for (size = 1; size <= 8; size++) {
        if (n <= 64 || size == 1 || size == 7) play_pieces(told, framing, n, size, size, size, rest)
    }
    for (size = 1; n <= 64 && size <= n; size++) play_pieces(told, framing, n, 10 + size, size, n, rest)
}

# What ends the session ends the listener's seat too, so of that piece's data nothing is given to it.
function play_pieces(told, framing, n, way, first, size, rest,    from, to) {
    begin(way)
    feed("/a", framing, "")
    listen("/a")
    for (from = 1; from <= n; from = to + 1) {
        to = from == 1 ? first : from + size - 1
        if (to >= n) {
            to = n
            mark()
        }
        print "in " source " " bytes(from, to) (to == n ? rest : "")
        if (to < n || told == "open") draw(data(from, to))
    }
    if (told == "open") leave(source)
    else print "shut " source " " told > transcript
    print "room " listener " 1"
    print "shut " listener " not-live" > transcript
}

# Deliveries, parted by commas, at a mount with that burst, and what a listener is then given.
function play_blocks(burst, framing, deliveries, given,    n, i, delivery) {
    print "[[mount]]\nmount-name = \"/" FNR "\"\nburst-size = " burst >> settings
    begin(0)
    n = split(deliveries, delivery, ",")
    feed("/" FNR, framing, delivery[1])
    for (i = 2; i <= n; i++) print "in " source " " delivery[i]
    listen("/" FNR)
    draw(given)
    leave(listener)
    leave(source)
}

# A text as a title, and as a name if a header can hold it: what is shown of both, if metadata come after each byte.
function play_text(text, name, block) {
    begin(0)
    print "in " source " SOURCE /each-byte HTTP/1.0\\r\\n" pair (name == "-" ? "" : "ice-name: " text "\\r\\n") "\\r\\ns"
    out(source, "HTTP/1.0 200 OK\\r\\n\\r\\n")
    print "title " source " " text
    print "open " listener " 10.0.0.2\nin " listener " GET /each-byte HTTP/1.0\\r\\nIcy-MetaData: 1\\r\\n\\r\\n"
    out(listener, "HTTP/1.0 200 OK\\r\\nContent-Type: audio/mpeg\\r\\n" (name == "-" ? "" : "icy-name: " name "\\r\\n") \
        "icy-metaint: 1\\r\\nConnection: close\\r\\n\\r\\n")
    draw("s" block)
    leave(listener)
    leave(source)
}

# a row's next way: a source comes
function begin(way) {
    source = FNR * 10000 + way * 10 + 1
    listener = source + 1
    print "open " source " 10.0.0.1"
}

function feed(mount, framing, start,    header) {
    header = framing == "chunked" ? "Transfer-Encoding: chunked\\r\\n" : "Content-Length: " framing "\\r\\n"
    print "in " source " PUT " mount " HTTP/1.1\\r\\n" pair (framing == "plain" ? "" : header) "\\r\\n" start
    out(source, "HTTP/1.0 200 OK\\r\\n\\r\\n")
}

function listen(mount) {
    print "open " listener " 10.0.0.2\nin " listener " GET " mount " HTTP/1.0\\r\\n\\r\\n"
    out(listener, "HTTP/1.0 200 OK\\r\\nContent-Type: audio/mpeg\\r\\nConnection: close\\r\\n\\r\\n")
}

# the listener draws all that there is
function draw(given) {
    print "room " listener " 100000"
    if (given != "") out(listener, given)
}

function leave(label) {
    print "end " label
    print "shut " label " done" > transcript
}

# a peer that the deny list has: so it shows what is written before this and what behind it
function mark() {
    print "open " source + 2 " 10.0.0.9"
    print "shut " source + 2 " address-denied" > transcript
}

function out(label, text) {
    print "out " label " " text > transcript
}

function deny(label, rule,    status) {
    status = rule ~ /^bad-/ ? "400 Bad Request" : rule ~ /-password$/ ? "401 Unauthorized" : "404 Not Found"
    out(label, "HTTP/1.0 " status "\\r\\nContent-Type: text/plain; charset=utf-8\\r\\nContent-Length: " (length(rule) + 9) \
        "\\r\\n" (status ~ /^401/ ? "WWW-Authenticate: Basic realm=\"radio\"\\r\\n" : "") \
        "Connection: close\\r\\n\\r\\ndenied: " rule "\\n")
    print "shut " label " " rule > transcript
}

function written_out(text,    found, count) {
    while (match(text, /[{][^{}]*[*][0-9]+[}]/)) {
        found = substr(text, RSTART + 1, RLENGTH - 2)
        count = found
        sub(/.*[*]/, "", count)
        sub(/[*][0-9]+$/, "", found)
        text = substr(text, 1, RSTART - 1) times(found, count) substr(text, RSTART + RLENGTH)
    }
    return text
}

function times(text, count,    whole) {
    whole = ""
    while (count-- > 0) whole = whole text
    return whole
}

# how many bytes a text has, which bytes() and data() then give as it writes them; those in brackets are data
function read_bytes(text,    n, i, width, is_inside) {
    n = 0
    is_inside = 0
    plain = ""
    for (i = 1; i <= length(text); i += width) {
        width = substr(text, i, 1) != "\\" ? 1 : substr(text, i + 1, 1) == "x" ? 4 : 2
        if (substr(text, i, 1) ~ /[[]/) is_inside = 1
        else if (substr(text, i, 1) ~ /[]]/) is_inside = 0
        else {
            place[++n] = length(plain) + 1
            is_data[n] = is_inside
            plain = plain substr(text, i, width)
        }
    }
    place[n + 1] = length(plain) + 1
    return n
}

function bytes(from, to) {
    return substr(plain, place[from], place[to + 1] - place[from])
}

function data(from, to,    text) {
    text = ""
    for (; from <= to; from++) if (is_data[from]) text = text bytes(from, from)
    return text
}
