# Prints one of the bench's scripts: awk -v what=NAME -v n=COUNT -f scripts.awk
function tx(site, serial) { return sprintf("%.0f", site * 4294967296 + serial) }

# n saves over the first k sites, coordinated by site 1, with one write at each, of a length that is not 0: JOIN and JOINED, PREPARE
# and CONC, CERT and VOTE, COMMIT
function saves(k,    i, s, t) {
    print "sites " k
    for (i = 1; i <= n; i++) {
        t = tx(1, i)
        print "begin 1"
        for (s = 2; s <= k; s++) print "enlist " t " " s
        for (s = 2; s <= k; s++) { print "take 1 " s; print "take " s " 1" }
        for (s = 1; s <= k; s++) print "write " s " " t " " ((s - 1) * 256 + i % 200) " " i " " (1 + i % 60)
        print "commit " t
        for (s = 2; s <= k; s++) { print "take 1 " s; print "take " s " 1" }
        for (s = 2; s <= k; s++) { print "take 1 " s; print "take " s " 1" }
        for (s = 2; s <= k; s++) print "take 1 " s
        for (s = 1; s <= k; s++) print "install " s
    }
}

BEGIN {
    if (what == "lone") saves(1)
    if (what == "two") saves(2)
    if (what == "eight") saves(8)
}
