# Writes whether the kernel of a stock has an assignment in k drives, for other solvers. Reads first what `drives`
# prints of a sheet, of which it takes the clash set, and then the sheet:
#   awk -v k=K -v form=cnf -f bench/colours.awk PRINTED SHEET     DIMACS clauses, one variable for a place and a drive
#   awk -v k=K -v form=lp  -f bench/colours.awk PRINTED SHEET     a program for gringo and clasp
# The stock is peeled at the size of the clash set first, whose members have the drives 1, 2, .. from the start.
function out(x,   i) { gone[x] = 1; for (i = 0; i < deg[x]; i++) left[near[x, i]]-- }
BEGIN { FS = "\t"; m = 0; places = 0; joined = 0; fixed = 0 }
FNR == NR { if ($1 == "k") for (i = 2; i <= NF; i++) clique[i - 1] = $i; b = $1 == "k" ? NF - 1 : b; next }
$1 == "s" { n = $2 }
$1 == "p" { ea[m] = $2; eb[m++] = $3; near[$2, deg[$2]++] = $3; near[$3, deg[$3]++] = $2 }
END {
    for (c = 0; c < n; c++) left[c] = deg[c] + 0
    do { again = 0; for (c = 0; c < n; c++) if (!gone[c] && left[c] < b) { out(c); again = 1 } } while (again)
    for (c = 0; c < n; c++) if (!gone[c]) place[c] = ++places
    for (i = 0; i < m; i++) if (!gone[ea[i]] && !gone[eb[i]]) joined++
    for (i = 1; i <= b; i++) if (!gone[clique[i]]) fixed++
    if (form == "cnf") {
        print "p cnf", places * k, places + joined * k + fixed
        for (c = 0; c < n; c++) if (!gone[c]) { for (d = 1; d <= k; d++) printf "%d ", (place[c] - 1) * k + d; print 0 }
        for (i = 0; i < m; i++) if (!gone[ea[i]] && !gone[eb[i]]) for (d = 1; d <= k; d++)
            print -((place[ea[i]] - 1) * k + d), -((place[eb[i]] - 1) * k + d), 0
        for (i = 1; i <= b; i++) if (!gone[clique[i]]) print (place[clique[i]] - 1) * k + i, 0
    } else {
        print "1 { has(X, D) : D = 1.." k " } 1 :- place(X)."
        print ":- joined(X, Y), has(X, D), has(Y, D)."
        for (c = 0; c < n; c++) if (!gone[c]) print "place(" place[c] ")."
        for (i = 0; i < m; i++) if (!gone[ea[i]] && !gone[eb[i]]) print "joined(" place[ea[i]] "," place[eb[i]] ")."
        for (i = 1; i <= b; i++) if (!gone[clique[i]]) print "has(" place[clique[i]] "," i ")."
        if (!places) print "place(0) :- #false."
    }
}
