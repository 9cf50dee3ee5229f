# Lists the signals of a dump that a pattern can name, each by its path. With -v events=1 it lists
# the events instead; with -v define=1 what --define can read: each signal that has bits, by its path
# and the range of these. A declaration stands on a line of its own.
$1 == "$scope" { long[++deep] = length($3) + 1; path = path $3 "." }
$1 == "$upscope" { path = substr(path, 1, length(path) - long[deep--]) }
define && $1 == "$var" && $3 >= 1 && $2 !~ /^(real|realtime|string|event)$/ {
    if (NF == 6) print path $5
    if (NF == 7 && $6 ~ /^\[/) print path $5 $6
}
!define && $1 == "$var" && NF == 6 && (events ? $2 == "event" : $3 == 1 && $2 !~ /^(real|realtime|event)$/) {
    if (path $5 ~ /^[A-Za-z_][A-Za-z0-9_.]*$/) print path $5
}
$1 == "$enddefinitions" { exit }
