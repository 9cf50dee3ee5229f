# A CSV of samples to the text form: the time in the first column, and a column of 0 and 1 for each
# signal. A row lasts until the next one; of rows with one time the last counts.
#   -v tick=0.001   how long a tick takes, in the unit of the times, which are rounded to ticks
#   -v digits=3     in place of tick: the unit stays, with so many decimals, for montre --scale 3
#   -v start=T      the time that becomes 0, which is 0 without it
#   -v FS=';'       another sign between columns than a comma
# Refused: a value that is neither 0 nor 1, a time that goes back or has more decimals than digits
# says, a row with more or fewer fields than the first, columns without a name of their own.
BEGIN {
    if (FS == " ") FS = ","
    if (!tick) tick = 1
    for (units = 1; i < digits; i++) units *= 10
    line = "%." digits + 0 "f%s\n"
}
function stop(why) { print "line " NR ": " why > "/dev/stderr"; exit 1 }
function is_time(text) { return text ~ /^[-+]?([0-9]+[.]?[0-9]*|[.][0-9]+)([eE][-+]?[0-9]+)?$/ }
function is_fine(text) {
    return match(text, /[.][0-9]*$/) && substr(text, RSTART + 1 + digits) ~ /[1-9]/
}
{ gsub(/[" \r]/, "") }
NF == 0 { next }
!columns && is_time($1) { stop("no names of columns") }
!columns {
    for (i = 2; i <= NF; i++) {
        gsub(/[^A-Za-z0-9_.]/, "_", $i)
        if ($i ~ /^[0-9.]/) $i = "_" $i
        if ($i == "" || ($i in known)) stop("column " i " has no name of its own")
        name[i] = $i; known[$i]
    }
    columns = NF
    next
}
NF != columns { stop(NF " fields, and not " columns) }
!is_time($1) { stop($1 " is no time") }
digits != "" && ($1 ~ /[eE]/ || is_fine($1)) { stop($1 " has more than " digits " decimals") }
$1 < start + 0 { stop("before start") }
{ now = int(($1 - start) * units / tick + 0.5) }
now > 9007199254740992 { stop($1 " has too many digits") }
now < last { stop("the time goes back") }
now > last { printf line, (now - last) / units, on; last = now }
{ on = "" }
{
    for (i = 2; i <= NF; i++)
        if ($i "" == "1") on = on " " name[i]
        else if ($i "" != "0") stop($i " is neither 0 nor 1")
}
