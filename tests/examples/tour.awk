# Writes tour.log: an evening of a club speaker with seven cells, and the lines a bad cable adds.

# A small ripple of 0..most, the same at every run.
function ripple(most) {
    seed = (seed * 75 + 74) % 65537
    return seed % (most + 1)
}

function sample(    k, line) {
    line = "S\t" current "\t" int(heat1) "\t" int(heat2)
    for (k = 1; k <= 7; k++) line = line "\t" (level + offset[k] + ripple(2))
    print line
}

# Charging: every cell rises by `rise` a sample.
function charge(samples, rise,    i) {
    for (i = 0; i < samples; i++) {
        current = 1480 + ripple(40)
        level += rise
        sample()
    }
}

# Playing: the music draws what it draws, and everything gets warmer.
function play(samples, warming,    i) {
    for (i = 0; i < samples; i++) {
        current = -1800 - 10 * ripple(150)
        level -= 2
        heat1 += warming
        heat2 += warming + 0.5
        sample()
    }
}

# Nothing flows: the cells sink by `fall` a sample and the pack cools by `cooling`.
function rest(samples, fall, cooling,    i) {
    for (i = 0; i < samples; i++) {
        current = ripple(6) - 3
        level -= fall
        if (heat1 - cooling >= 2960) heat1 -= cooling
        if (heat2 - cooling >= 2960) heat2 -= cooling
        sample()
    }
}

BEGIN {
    seed = 2024
    level = 3860
    heat1 = 2970
    heat2 = 2965
    split("0 14 22 3 17 9 25", offset, " ")

    print "F\t3"                                # remembered until a sample is there
    print "S\t0\t2970\t2965\t3860\t3860\t3860"  # a cable with three cells: 9
    rest(4, 0, 0)
    print "F\t4"                                # no such command: 16
    charge(20, 5)                               # over the floor: cells are bled in turn
    print "S\t1500\t2970\t2965\t3990\t3990\t6001\t3990\t3990\t3990\t3990"   # 10
    charge(20, 5)
    print "S\t1500\t1999\t2965\t3990\t3990\t3990\t3990\t3990\t3990\t3990"   # 11
    print "S\t1500\t2970\t2965\t3990\t3990\t3990\t3990\t3990\t3990\t3990\r" # 17
    charge(37, 5)                               # over voltage rises: charging stops
    rest(40, 4, 0)                              # and is released
    print ""                                    # an empty line: 17
    print "F\t2"                                # the host wants to play, not to charge
    play(30, 4)                                 # it gets warm
    print "S\t-0\t3100\t3100\t4000\t4000\t4000\t4000\t4000\t4000\t4000"     # 17
    print "s\t-2000\t3100\t3100\t4000\t4000\t4000\t4000\t4000\t4000\t4000"  # 17
    play(66, 4)                                 # charge over heat at 45 degrees, discharge at 60
    rest(60, 0, 7)                              # all are released as the pack cools
    print "F\t03"                               # 17
    print "F\t3"
    play(5, 0)
    current = -24000
    sample()                                    # a short: everything is off at once
    rest(8, 0, 2)
    charge(40, 3)                               # charging and bleeding again
    print "F\t256"                              # 16, not 0
    print "F\t0"                                # good night
    rest(3, 0, 0)
}
