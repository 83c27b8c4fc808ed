# A sheet near the limit of 65,536 bytes: n numbers on a ring, each joined to the next w, without turning round.
# awk -v n=680 -v w=10 -f bench/sheet.awk
BEGIN {
    OFS = "\t"
    m = 0
    for (a = 0; a < n; a++) for (b = a + 1; b <= a + w && b < n; b++) m++
    print "s", n, m
    for (a = 0; a < n; a++) for (b = a + 1; b <= a + w && b < n; b++) print "p", a, b
    print "e"
}
