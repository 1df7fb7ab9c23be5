# The currents of examples/season.csv, before a device divided them: 1,000 seconds of one exposure, from a clean room and back to
# one. A current is in whole nA, the sensitivity is 1343 nA a part per million.
BEGIN {
    drawn = 143
    level = 70
    print "time,current,sensitivity"
    for (second = 0; second < 1000; second++) {
        target = second < 150 ? 70 : second < 560 ? 4200 : 100
        level += (target - level) / 128
        drawn = (drawn * 16807) % 2147483647
        print 1763280000 + second "," int(level) + drawn % 41 - 20 ",1343"
    }
}
