# Makes JUnit's XML of the text of montre --check: montre --check .. CHECKS | awk -f junit.awk
# What is open or vacuous is skipped. The status is 1 if a check fails, and if there is no answer.
# A name has letters, digits, `_` and full stops alone, so nothing is to be escaped.
NF == 2 && $1 == "end" { ended = 1; next }
NF == 2 { name[++checks] = $2; verdict[checks] = $1; count[$1]++; next }
{ zones[$1] = zones[$1] "\n" $0 }
END {
    if (!ended) { name[++checks] = "answer"; verdict[checks] = "error"; count["error"]++ }
    printf "<testsuite name=\"montre\" tests=\"%d\" failures=\"%d\" errors=\"%d\" skipped=\"%d\">\n",
        checks, count["fail"], count["error"], count["open"] + count["vacuous"]
    tag["fail"] = "failure"; tag["error"] = "error"; tag["open"] = tag["vacuous"] = "skipped"
    for (i = 1; i <= checks; i++) {
        printf "<testcase classname=\"montre\" name=\"%s\">", name[i]
        if ((it = tag[verdict[i]]) != "") printf "<%s message=\"%s\">%s</%s>", it, verdict[i], zones[name[i]], it
        print "</testcase>"
    }
    print "</testsuite>"
    exit count["fail"] + count["error"] > 0
}
