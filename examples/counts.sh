#!/bin/sh
# counts.sh [OPTION..] CHECKS ANSWERS LIST: puts the answers of check_dump.sh to many dumps into one
# table. The options and the checks are those that it was given, and LIST has the name of a dump on
# each line. Printed are the dumps that have no whole answer to just these checks, over the dump as
# it is now, with the reason; and for each check the verdict over all dumps, which is `fail` if it
# fails in one, else `open` if it is in one, else `pass`, or `vacuous` if it is in all, with how many
# dumps have it, and the first where it isn't all. For a check without a verdict it is how many zones
# there are in how many dumps. The status is 1 if a dump has no such answer, and 13 if a check fails.
left=$#
while [ "$left" -gt 0 ]; do
    case $1 in
        --*=*) set -- "$@" "$1"; shift; left=$((left - 1)) ;;
        --*) set -- "$@" "$1" "$2"; shift 2; left=$((left - 2)) ;;
        *) break ;;
    esac
done
[ "$left" -eq 3 ] || { echo 'counts.sh [OPTION..] CHECKS ANSWERS LIST' >&2; exit 2; }
checks=$1 answers=$2 list=$3
shift 3
asked=$({ printf '%s\n' "$@"; cat "$checks"; } | cksum)
told=$(mktemp) || exit 1
trap 'rm -f "$told"' EXIT

# reason DUMP ANSWER: why the dump has no answer that counts, if it has none.
reason() {
    if [ ! -f "$2.told" ]; then
        head -n 1 "$2.failed" 2> /dev/null || echo 'no answer'
        return
    fi
    read -r sums < "$2.told"
    case $sums in
        "sums $asked $(cksum < "$1")") tail -n 1 "$2.told" | grep -q '^end [0-9.]*$' || echo 'no whole answer' ;;
        "sums $asked "*) echo 'the answer is to another dump of this name' ;;
        *) echo 'the answer is to other checks or options' ;;
    esac
}

tr -d '\r' < "$list" | {
    bad=0
    while IFS= read -r dump || [ -n "$dump" ]; do
        [ -n "$dump" ] || continue
        answer=$answers/$(printf '%s\n' "$dump" | sed 's/%/%25/g; s/\.\./%2E%2E/g; s|^/|%2F|')
        why=$(reason "$dump" "$answer")
        if [ -n "$why" ]; then
            echo "no answer: $dump: $why"
            bad=1
        else
            printf 'told: %s\t%s\n' "$answer.told" "$dump"
        fi
    done
    exit "$bad"
} > "$told"
bad=$?
grep '^no answer: ' "$told"
sed -n 's/^told: //p' "$told" | awk '
    FNR == NR {
        sub(/\r$/, "")
        head = index($0, "=") ? substr($0, 1, index($0, "=") - 1) : $0
        words = split(head, word, " ")
        if (words == 0 || word[1] ~ /^#/ || words == 2 && word[1] == "let") next
        check[++checks] = word[words]
        plain[checks] = words == 1
        next
    }
    {
        tab = index($0, "\t")
        answer = substr($0, 1, tab - 1)
        dumps++
        split("", zones)
        split("", verdict)
        while ((getline line < answer) > 0) {
            words = split(line, word, " ")
            if (words == 4) zones[word[1]]++
            if (words == 2) verdict[word[2]] = word[1]
        }
        close(answer)
        for (at = 1; at <= checks; at++) {
            name = check[at]
            all[name] += zones[name]
            where[name] += zones[name] > 0
            if (!(name in verdict)) continue
            key = name " " verdict[name]
            if (!count[key]++) first[key] = substr($0, tab + 1)
        }
    }
    # over all dumps
    function verdict_of(name) {
        if (count[name " fail"]) return "fail"
        if (count[name " open"]) return "open"
        return count[name " pass"] || !dumps ? "pass" : "vacuous"
    }
    END {
        for (at = 1; at <= checks; at++) {
            name = check[at]
            if (plain[at]) {
                print name ": " all[name] + 0 " zones in " where[name] + 0 " of " dumps + 0 " dumps"
                continue
            }
            is = verdict_of(name)
            failed += is == "fail"
            key = name " " is
            line = is " " name ": " count[key] + 0 " of " dumps + 0 " dumps"
            print line (is ~ /fail|open/ ? ", first " first[key] : "")
        }
        exit failed ? 13 : 0
    }' "$checks" -
failed=$?
[ "$bad" -eq 0 ] || exit "$bad"
exit "$failed"
