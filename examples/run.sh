#!/bin/sh
# Runs each example of the pages with the program in $MONTRE, and compares:
#   MONTRE=/path/to/montre sh examples/run.sh [--unproved]
# examples/README.md says what an example is. It fails at any difference, and where a page of PAGES has no example. A
# program that bench/house/unproved.sh built is taken with --unproved alone, and no other one with it.
: "${MONTRE:?the path of the program}"
case $MONTRE in /*) ;; *) MONTRE=$PWD/$MONTRE ;; esac
[ -x "$MONTRE" ] || { echo "run.sh: $MONTRE isn't a program"; exit 1; }
kind=proved
[ "$(basename "$(readlink -f "$MONTRE")")" != montre-unproved ] || kind=unproved
! grep -qa 'montre-unproved: built without proof' "$MONTRE" || kind=unproved
case $kind-$* in
    proved- | unproved---unproved) ;;
    unproved-) echo "run.sh: $MONTRE isn't proved; --unproved takes it"; exit 1 ;;
    *) echo 'run.sh: MONTRE=/path/to/montre sh examples/run.sh [--unproved], and --unproved for such a program alone'; exit 1 ;;
esac
cd "$(dirname "$0")/.." || exit 1
PAGES='README.md docs/clocked.md docs/cookbook.md docs/many.md docs/montre.1 docs/output.md docs/patterns.md docs/scripts.md docs/traces.md docs/vcd.md examples/README.md examples/shapes.md'
room=$(mktemp -d) || exit 1
trap 'rm -rf "$room"' EXIT
export MONTRE room
good=0
bad=0

# The program as the pages call it; each call leaves a line in the file runs.
mkdir "$room/bin" || exit 1
printf '%s\n' '#!/bin/sh' 'echo >> "$room/runs"' 'exec "$MONTRE" "$@"' > "$room/bin/montre"
chmod +x "$room/bin/montre" || exit 1
PATH=$room/bin:$PATH

# text PAGE: the page, where it is a man page with its examples as those of the other pages.
text() {
    case $1 in
        *.1) sed -e 's/^\.EX$/```console/' -e 's/^\.EE$/```/' -e "s/\\\\(aq/'/g" -e 's/\\-/-/g' -e 's/\\e/\\/g' "$1" ;;
        *) cat "$1" ;;
    esac
}

# split PAGE FOLDER: writes the examples of a page there, N.command and N.wanted for each.
split() {
    text "$1" | awk -v folder="$2" '
        function example(command) {
            if (count) close(folder "/" count ".wanted")
            count++
            wanted = folder "/" count ".wanted"
            print command > (folder "/" count ".command")
            printf "" > wanted
            close(folder "/" count ".command")
        }
        # a cell of a table without its backticks, and `|` for the `\|` that stands for it there
        function cell(text) {
            gsub(/^ *`|` *$/, "", text)
            gsub(/\001/, "|", text)
            return text
        }
        /^```console$/ { inside = 1; wanted = ""; next }
        # one for a program that not every machine has
        /^```console [a-z0-9]+$/ {
            inside = system("command -v " $2 " > /dev/null") == 0 ? 1 : 2
            wanted = ""
            next
        }
        inside == 2 { if (/^```/) inside = 0; next }
        /^```/ { inside = 0; next }
        inside && /^\$ / { example(substr($0, 3)); next }
        # a block that begins with no command, and a command outside a block, are faults of the page
        inside && wanted == "" || !inside && /^[ \t]*\$ montre/ { example("false") }
        inside { print > wanted; next }
        /^\| pattern \| printed \|/ { table = 1; next }
        !/^\|/ { table = 0 }
        table && /^\| `/ {
            gsub(/\\\|/, "\001")
            split($0, cells, /\|/)
            example("montre '\''" cell(cells[2]) "'\'' < small.trace")
            print "montre: expression: " cell(cells[3]) > wanted
        }
    '
}

# session FOLDER: runs the examples in their order in one shell, in a copy of examples/.
session() (
    mkdir "$room/files" && cp -r examples/* "$room/files" && cd "$room/files" || exit 1
    place=1
    while [ -f "$1/$place.command" ]; do
        . "$1/$place.command" > "$1/$place.printed" 2>&1
        echo $? > "$1/$place.status"
        place=$((place + 1))
    done
)

# status_of FILE: the exit status that docs/output.md has for what was printed.
status_of() {
    case $(tail -n 1 "$1") in
        'montre: wrong arguments') echo 2 ;;
        'montre: expression: '*) echo 3 ;;
        'montre: trace: '*) echo 4 ;;
        'montre: input too long') echo 5 ;;
        'montre: read fault') echo 6 ;;
        'montre: write fault') echo 7 ;;
        'montre: out of memory') echo 8 ;;
        'montre: too many zones '*) echo 9 ;;
        'montre: minus expression: '*) echo 10 ;;
        'montre: definitions: '*) echo 11 ;;
        'montre: watch: '*) echo 12 ;;
        'montre: failed checks '*) echo 13 ;;
        *) echo 0 ;;
    esac
}

# judge PAGE FOLDER: compares what was printed with what the page says.
judge() {
    place=1
    while [ -f "$2/$place.command" ]; do
        code=$(cat "$2/$place.status" 2> /dev/null)
        want=$(status_of "$2/$place.wanted")
        if [ "$code" = "$want" ] && cmp -s "$2/$place.wanted" "$2/$place.printed"; then
            good=$((good + 1))
        else
            bad=$((bad + 1))
            printf 'FAILED: %s: %.200s (status %s, not %s)\n' "$1" "$(cat "$2/$place.command")" "${code:-none}" "$want"
            diff "$2/$place.wanted" "$2/$place.printed"
        fi
        place=$((place + 1))
    done
}

# check PAGE
check() {
    folder=$(mktemp -d "$room/page.XXXXXX") || exit 1
    rm -rf "$room/files"
    : > "$room/runs"
    split "$1" "$folder"
    session "$folder"
    judge "$1" "$folder"
    if [ ! -s "$room/runs" ] && { case " $PAGES " in *" $1 "*) ;; *) text "$1" | grep -q '^```console' ;; esac; }; then
        bad=$((bad + 1))
        echo "FAILED: $1 has no example that ran"
    fi
}

for page in README.md docs/*.md docs/*.1 examples/*.md; do
    check "$page"
done

# What no page shows: a device that takes nothing.
if [ -c /dev/full ]; then
    printf '%s\n' 'montre: write fault' > "$room/wanted"
    "$MONTRE" p < examples/small.trace > /dev/full 2> "$room/printed"
    if [ $? -eq 7 ] && cmp -s "$room/wanted" "$room/printed"; then
        good=$((good + 1))
    else
        bad=$((bad + 1))
        echo 'FAILED: montre p > /dev/full'
    fi
fi

# Every link of a page leads somewhere.
if python3 examples/links.py ./*.md docs/*.md examples/*.md bench/*.md; then
    good=$((good + 1))
else
    bad=$((bad + 1))
    echo 'FAILED: a link of a page'
fi

# The page of definitions is what its script writes.
if python3 bench/house/statement.py --page "$room/statement.md" && cmp -s "$room/statement.md" docs/statement.md; then
    good=$((good + 1))
else
    bad=$((bad + 1))
    echo 'FAILED: docs/statement.md is not what `python3 bench/house/statement.py --page docs/statement.md` writes'
fi

echo "$good good, $bad failed"
[ "$bad" -eq 0 ]
