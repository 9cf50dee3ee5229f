# feed.sh TRACE ARGUMENTS..: gives a trace to montre --online line by line, each line after the block
# of the line before. After `>` is the line that was given, and below it is what montre printed.
trace=$1
shift
mkfifo lines || exit 1
# (in this order `printed` exists before `lines` has a reader, for which `exec` waits)
montre --online "$@" > printed < lines &
exec 3> lines
blocks=0
while read -r line; do
    shown=$(wc -l < printed)
    printf '> %s\n' "$line"
    printf '%s\n' "$line" >&3
    blocks=$((blocks + 1))
    for try in $(seq 200); do
        [ "$(grep -c '^at ' printed)" -eq "$blocks" ] && break
        sleep 0.05
    done
    tail -n +"$((shown + 1))" printed
done < "$trace"
exec 3>&-
wait
tail -n 1 printed
rm lines printed
