# Prints the changes of identifiers that no $var of the dump declares, each with its line. A sound
# dump has none: they are words that another program printed into it.
{ sub(/\r$/, "") }
function check(id, word) { if (!(id in known)) print "line " NR ": " word }
$1 == "$var" { known[$4] }
$1 == "$enddefinitions" { values = 1; next }
!values { next }
{
    for (place = 1; place <= NF; place++) {
        if ($place == "$comment") comment = 1
        if ($place == "$end") comment = 0
        if (comment || $place ~ /^[#$]/) continue
        if ($place ~ /^[bBrRsS]/) { check($(place + 1), $place); place++ }
        else check(substr($place, 2), $place)
    }
}
