# Writes a stock as large as a list form may be, 1,024 cartridges and 16,384 clashes, as a sheet:
# awk -v kind=KIND -f bench/full.awk
#   sparse     the clashes anywhere
#   dense      181 that all clash, and the last clashes anywhere
#   clustered  32 groups of 32 that all clash, and the last clashes anywhere
# The numbers come from a generator of its own, so that every awk writes the same stock.
function below(k) { seed = (seed * 16807) % 2147483647; return int(seed / 2147483647 * k) }
function join(a, b) { if (a > b) return join(b, a); if (a != b && !((a, b) in e)) { e[a, b] = 1; m++ } }
BEGIN {
    seed = 20261118; m = 0; n = 1024; most = 16384; OFS = "\t"
    for (i = 0; i < 20; i++) below(2)
    if (kind == "dense") for (a = 0; a < 181; a++) for (b = a + 1; b < 181; b++) join(a, b)
    if (kind == "clustered") for (a = 0; a < n; a++) for (b = a + 1; b < n; b++) if (a % 32 == b % 32) join(a, b)
    while (m < most) join(below(n), below(n))
    print "s", n, m
    for (a = 0; a < n; a++) for (b = a + 1; b < n; b++) if ((a, b) in e) print "p", a, b
    print "e"
}
