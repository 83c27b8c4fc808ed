# Writes a generated stock as a sheet: awk -v kind=KIND -v n=N -v p=P [-v dimacs=1] -f bench/graphs.awk
#   random     each pair clashes with chance p
#   geometric  points in the unit square, clashing below distance p
#   jobs       cartridges hold a stretch of time of length up to p; those that overlap clash
#   cliques    p groups, each of cartridges that all clash, and a few clashes between groups
# The numbers come from a generator of its own, so that every awk writes the same stock. With dimacs=1 the
# same stock is written for programs that read DIMACS graphs.
function next_random() { seed = (seed * 16807) % 2147483647; return seed / 2147483647 }
function join(a, b) { ea[m] = a; eb[m] = b; m++ }
function overlap(a, b) { return x[a] < y[b] && x[b] < y[a] }
BEGIN {
    seed = 20261117; m = 0
    for (i = 0; i < 20; i++) next_random()
    if (kind == "geometric") for (i = 0; i < n; i++) { x[i] = next_random(); y[i] = next_random() }
    if (kind == "jobs") for (i = 0; i < n; i++) { x[i] = next_random(); y[i] = x[i] + next_random() * p }
    if (kind == "cliques") for (i = 0; i < n; i++) x[i] = int(next_random() * p)
    for (a = 0; a < n; a++) for (b = a + 1; b < n; b++) {
        if (kind == "random" && next_random() < p) join(a, b)
        if (kind == "geometric" && (x[a] - x[b]) ^ 2 + (y[a] - y[b]) ^ 2 < p ^ 2) join(a, b)
        if (kind == "jobs" && overlap(a, b)) join(a, b)
        if (kind == "cliques" && (x[a] == x[b] || next_random() < 0.002)) join(a, b)
    }
    if (dimacs) {
        print "p edge", n, m
        for (i = 0; i < m; i++) print "e", ea[i] + 1, eb[i] + 1
    } else {
        OFS = "\t"
        print "s", n, m
        for (i = 0; i < m; i++) print "p", ea[i], eb[i]
        print "e"
    }
}
