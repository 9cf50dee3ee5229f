# A table whose first column has times, with durations in their place: awk -F , -f durations.awk TABLE
#   -v digits=3   times have so many decimals, and durations too, for montre --scale 3
# A row lasts until the time of the next one. The last row has no duration and is left out, and of
# rows with one time the last counts. Refused: what is no time, and a time that goes back.
function stop(why) { print "line " NR ": " why > "/dev/stderr"; exit 1 }
{ sub(/\r$/, "") }
NF == 0 { next }
!header { header = 1; print; next }
$1 !~ /^-?([0-9]+[.]?[0-9]*|[.][0-9]+)$/ { stop($1 " is no time") }
match($1, /[.][0-9]*$/) && substr($1, RSTART + 1 + digits) ~ /[1-9]/ { stop($1 " has more than " digits + 0 " decimals") }
rows && $1 < time { stop("the time goes back") }
rows && $1 > time { printf "%.*f%s\n", digits, $1 - time, rest }
{ rows++; time = $1 + 0; rest = substr($0, length($1) + 1) }
