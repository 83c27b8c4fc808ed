# Writes a named stock as a sheet: awk -v kind=KIND -v n=N [-v p=P] -f bench/named.awk
#   ring       N cartridges in a ring
#   mycielski  Mycielski's construction N times on one clash: no three all clash, and N + 2 drives are needed
#   queens     the squares of a board N by N; two clash where one queen attacks the other
#   sparse     N cartridges and P * N / 2 clashes anywhere
#   shifts     N cartridges, each in two or three of P jobs at random
# The numbers come from a generator of its own, so that every awk writes the same stock.
function below(k) { seed = (seed * 16807) % 2147483647; return int(seed / 2147483647 * k) }
function join(a, b) { if (a > b) return join(b, a); if (a != b && !((a, b) in e)) { e[a, b] = 1; m++ } }
function grow(   a, b, had) {
    for (a = 0; a < n; a++) for (b = a + 1; b < n; b++) if ((a, b) in e) { had[a, b] = 1 }
    for (a = 0; a < n; a++) for (b = a + 1; b < n; b++) if ((a, b) in had) { join(a, n + b); join(b, n + a) }
    for (a = 0; a < n; a++) join(n + a, 2 * n)
    n = 2 * n + 1
}
BEGIN {
    seed = 20261118; m = 0; OFS = "\t"
    for (i = 0; i < 20; i++) below(2)
    if (kind == "ring") for (a = 0; a < n; a++) join(a, (a + 1) % n)
    if (kind == "mycielski") { times = n; n = 2; join(0, 1); for (i = 0; i < times; i++) grow() }
    if (kind == "queens") {
        w = n; n = w * w
        for (a = 0; a < n; a++) for (b = a + 1; b < n; b++) {
            dx = a % w - b % w; dy = int(a / w) - int(b / w)
            if (dx == 0 || dy == 0 || dx == dy || dx == -dy) join(a, b)
        }
    }
    if (kind == "sparse") while (m < p * n / 2) join(below(n), below(n))
    if (kind == "shifts") {
        for (a = 0; a < n; a++) for (i = 0; i < 2 + below(2); i++) in_job[a, below(p)] = 1
        for (a = 0; a < n; a++) for (b = a + 1; b < n; b++) for (j = 0; j < p; j++)
            if ((a, j) in in_job && (b, j) in in_job) join(a, b)
    }
    print "s", n, m
    for (a = 0; a < n; a++) for (b = a + 1; b < n; b++) if ((a, b) in e) print "p", a, b
    print "e"
}
