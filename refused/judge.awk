# Reads what a test program said under refuse.c, and says of each row whether its call did as it has to. The last line is
# `counts PASSED FAILED`. Rows whose name begins with `wrong::` are wrong on purpose: there a report is what has to come.
#
# A call's runs are these, and no others: each but the last with a request refused, and answered by out of memory; the
# last with none refused, and answered normally; and one with all requests refused, which is answered by out of memory
# where the call makes any. Of a call that is `optional`, a run that was refused may be answered normally, but not each.

function line(what, good) {
    if (good) passed++
    else failed++
    print (good ? "ok      " : "FAILED  ") what
}

# What is wrong with the runs of the row that was read, or nothing.
function fault() {
    if (kind == "") return "no call began"
    if (third != "") return third (said == "" ? "" : " (" said ")")
    if (!ended) return "no run was without a refusal"
    if (all == "") return "no run with all requests refused"
    if (all != (refused ? "out-of-memory" : "normal")) return "with all requests refused it answers " all
    if (kind == "not-taken" && refused) return "it asks for memory, " refused " times"
    if (kind ~ /^(taken|often|optional)$/ && !refused) return "it asks for no memory"
    return ""
}

function close_row(  what, why) {
    if (row == "") return
    why = fault()
    what = row ", " refused " requests"
    if (kind == "often") what = row ", " refused " of its requests"
    if (spared) what = what ", " spared " of them optional"
    if (row ~ /^wrong::/) line(what ", wrong on purpose: " (why == "" ? "NOT REPORTED" : why), why != "")
    else line(what ", " (why == "" ? (refused ? "each refused" : "none to refuse") : why), why == "")
    row = kind = third = all = said = ""
    refused = ended = spared = 0
}

function run(n, was, answer) {
    if (n == "all") { all = answer; return }
    if (ended) third = "a run behind the last"
    if (was == "given") {
        # (the first run of a call of many requests counts them)
        if (kind == "often" && n == "none") { if (answer != "normal") third = "it answers " answer; return }
        ended = 1
        if (answer != "normal") third = "with no request refused it answers " answer
    } else {
        refused++
        if (kind == "optional" && answer == "normal") spared++
        else if (answer != "out-of-memory" && third == "") third = "with request " n " refused it answers " answer
    }
}

FNR == 1 { if (NR > 1) close_test(); test = ""; closed = 0 }
/^test NAME / { test = $3; next }
/^row / { close_row(); row = substr($0, 5); next }
/^call / { kind = $2; next }
/^run / { answer = $0; sub(/^run [^ ]* [^ ]* /, "", answer); run($2, $3, answer); next }
/^test result: ok/ { closed = 1; next }
/^status / { status = $2; next }
/./ { if (said == "") said = $0 }
END { close_test(); print "counts", passed + 0, failed + 0 }

function close_test() {
    close_row()
    if (!closed || status != 0) line(test ": the test itself ended with status " status ", and no answer", 0)
}
