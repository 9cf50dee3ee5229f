#!/bin/sh
# check_dump.sh [OPTION..] CHECKS ANSWERS DUMP: checks one dump by a file of checks, with options of
# montre such as --define TEXT. The whole answer comes to ANSWERS/DUMP.told, and the status is 0, or
# 13 where a check fails. Where montre gives no answer, its message comes to ANSWERS/DUMP.failed, and
# the status is 1. The first line of an answer has the sums of what was asked, which is the options
# and the checks, and of the dump. Nothing is half written: so many dumps may be checked at once, and
# again after a break. The answer to a DUMP with `..` in its name, or a `/` in front, stays below
# ANSWERS: these are %2E%2E and %2F in its name.
left=$#
while [ "$left" -gt 0 ]; do
    # options go behind the other arguments
    case $1 in
        --*=*) set -- "$@" "$1"; shift; left=$((left - 1)) ;;
        --*) set -- "$@" "$1" "$2"; shift 2; left=$((left - 2)) ;;
        *) break ;;
    esac
done
[ "$left" -eq 3 ] || { echo 'check_dump.sh [OPTION..] CHECKS ANSWERS DUMP' >&2; exit 2; }
checks=$1 answers=$2 dump=$3
shift 3
answer=$answers/$(printf '%s\n' "$dump" | sed 's/%/%25/g; s/\.\./%2E%2E/g; s|^/|%2F|')
mkdir -p "$(dirname "$answer")" || exit 1
rm -f "$answer.told" "$answer.failed"
{
    echo "sums $({ printf '%s\n' "$@"; cat "$checks"; } | cksum) $(cksum < "$dump")" &&
        montre --check --format vcd --input "$dump" "$@" "$checks"
} > "$answer.part" 2> "$answer.message"
status=$?
if [ "$status" -eq 0 ] || [ "$status" -eq 13 ]; then
    rm "$answer.message" && mv "$answer.part" "$answer.told" && exit "$status"
    exit 1
fi
[ -s "$answer.message" ] || echo "montre ended with status $status" > "$answer.message"
rm "$answer.part"
mv "$answer.message" "$answer.failed"
exit 1
