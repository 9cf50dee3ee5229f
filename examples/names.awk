# Gives the signals of a dump names that a pattern can have: tb.lane[7].u becomes tb.lane_7.u, and
# each other sign that no name has becomes `_`. With
#   awk -v vectors='tb.q tb.slots[0]' -f names.awk dump.vcd
# each bit of these vectors is a signal too: tb.q [7:0] gives tb.q_7 to tb.q_0. A vector is named as
# in the dump, without its range, or as its bits are, without their number.
# It refuses two signals that would have one name, a vector that the dump doesn't have, and a dump
# that isn't in lines as tools write them: a declaration on a line of its own, a time first on its
# line.
function stop(why) { print "names.awk: " why > "/dev/stderr"; failed = 1; exit 1 }
function at_line(why) { stop("line " NR ": " why) }

# mended(NAME): a name, with _3 for [3] or (3), and `_` for every other sign but a `\` before it
function mended(name) {
    sub(/^\\/, "", name)
    gsub(/[[(]/, "_", name)
    gsub(/[])]/, "", name)
    gsub(/[^A-Za-z0-9_.]/, "_", name)
    return name ~ /^[0-9.]/ && path == "" ? "_" name : name
}

# take(KIND, NAME, FROM, IDENTIFIER): the name is now that of this signal or event of the dump
function take(kind, name, from, id) {
    if (!((kind, name) in origin)) { origin[kind, name] = from; owner[kind, name] = id }
    else if (owner[kind, name] != id && (origin[kind, name] != from || from != name))
        at_line(origin[kind, name] " and " from " would have one name, " name)
}

# declare_bits(NAME, FROM, RANGE): declares the bits of a vector
function declare_bits(name, from, range,    bounds, step, bit, index_, id) {
    gsub(/[][]/, "", range)
    split(range == "" ? $3 - 1 ":0" : range, bounds, ":")
    step = bounds[1] + 0 < bounds[2] + 0 ? 1 : -1
    if (bounds[1] + step * ($3 - 1) != bounds[2]) at_line("a range that isn't that of " $3 " bits")
    size[$4] = $3
    for (bit = 0; bit < $3; bit++) {
        index_ = bounds[1] + step * bit
        id = "bit~" $4 "~" bit
        take("signal", path name mended("[" index_ "]"), plain from "[" index_ "]", id)
        if (id in known) at_line("the dump has the identifier " id)
        printf "$var wire 1 %s %s%s $end\n", id, name, mended("[" index_ "]")
    }
}

# change(VALUE, IDENTIFIER): prints the bits that differ from before, the first one first
function change(value, id,    letters, bit, letter) {
    letters = substr(value, 2)
    letter = substr(letters, 1, 1)
    if (letter == "1") letter = "0"
    while (length(letters) < size[id]) letters = letter letters
    letters = substr(letters, length(letters) - size[id] + 1)
    for (bit = 0; bit < size[id]; bit++) {
        letter = substr(letters, bit + 1, 1)
        if (last[id, bit] != letter) printf "%sbit~%s~%d\n", letter, id, bit
        last[id, bit] = letter
    }
}

BEGIN { count = split(vectors, list, " ") }
values { print }
values && (!count || NF == 1 && !comment && /^[ \t]*[^bBrRsS$]/) { next }
{ sub(/\r$/, "") }
values {
    for (place = 1; place <= NF; place++) {
        word = $place
        if (word == "$comment") comment = 1
        if (word == "$end") comment = 0
        if (comment) continue
        if (word ~ /^#/ && place > 1) at_line("a time that isn't first on its line")
        if (word !~ /^[bBrRsS]/) continue
        if (++place > NF) at_line("a value without its identifier")
        if (word ~ /^[bB]/ && $place in size) change(word, $place)
    }
    next
}
/[$](var|scope|upscope)[ \t]/ && $1 !~ /^[$](var|scope|upscope)$/ {
    at_line("a declaration that doesn't begin its line")
}
$1 ~ /^[$](var|scope)$/ && $NF != "$end" { at_line("a declaration that isn't on one line") }
$1 == "$scope" {
    plain_before[++deep] = plain; path_before[deep] = path
    name = mended($3); path = path name "."
    sub(/^\\/, "", $3); plain = plain $3 "."
    print "$scope", $2, name, "$end"
    next
}
$1 == "$upscope" { plain = plain_before[deep]; path = path_before[deep--] }
$1 == "$var" {
    from = $5; range = ""; known[$4]
    sub(/^\\/, "", from)
    for (place = 6; place < NF; place++)
        if ($place ~ /^\[/) from = from $place; else from = from "_" $place
    if (match(from, /\[-?[0-9]+:-?[0-9]+\]$/)) {
        range = substr(from, RSTART)
        from = substr(from, 1, RSTART - 1)
    }
    name = mended(from)
    real = $2 ~ /^(real|realtime|string)$/
    if ($2 == "event") take("event", path name, plain from, $4)
    else if ($3 == 1 && !real) take("signal", path name, plain from, $4)
    print "$var", $2, $3, $4, name ($3 == 1 || range == "" ? "" : " " range), "$end"
    for (place = 1; place <= count && $3 > 1 && !real; place++) {
        asked = list[place] == plain from || list[place] == path name
        if (asked && !(place in found)) { found[place]; declare_bits(name, from, range) }
    }
    next
}
$1 == "$enddefinitions" {
    if (count && NF > 2) at_line("values on the line of $enddefinitions")
    for (place = 1; place <= count; place++)
        if (!(place in found)) stop("the dump has no vector " list[place])
    values = 1
}
{ print }
END { if (!failed && !values) stop("the dump has no $enddefinitions") }
