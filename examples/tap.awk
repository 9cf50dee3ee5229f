# Makes TAP of the text of montre --check: montre --check .. CHECKS | awk -f tap.awk
# What is open or vacuous is skipped. The status is 1 if a check fails, and if there is no answer.
NF == 2 && $1 == "end" { ended = 1; next }
NF == 2 {
    checks++
    failed += $1 == "fail"
    skip = $1 == "open" || $1 == "vacuous" ? " # SKIP " $1 : ""
    print ($1 == "fail" ? "not ok " : "ok ") checks " - " $2 skip
    next
}
{ print "# " $0 }
END {
    if (ended) print "1.." checks + 0
    else print "Bail out! montre gave no answer"
    exit !ended || failed > 0
}
