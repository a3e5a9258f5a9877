# Writes winter.log: a cold morning at a winter market. The speaker, five cells, stood in the van overnight.

# A small ripple of 0..most, the same at every run.
function ripple(most) {
    seed = (seed * 75 + 74) % 65537
    return seed % (most + 1)
}

# Temperature 2 is measured at the amplifier, a little warmer.
function sample(    k, line) {
    line = "S\t" current "\t" heat "\t" (heat + 9)
    for (k = 1; k <= 5; k++) line = line "\t" (level + offset[k] + ripple(2))
    print line
}

# Nothing flows; the pack gets warmer, or colder, by so many tenths a sample.
function stand(samples, warming,    i) {
    for (i = 0; i < samples; i++) {
        current = ripple(4) - 2
        heat += warming
        sample()
    }
}

function play(samples, warming,    i) {
    for (i = 0; i < samples; i++) {
        current = -1200 - 10 * ripple(90)
        level -= 1
        heat += warming
        sample()
    }
}

# Charging: every cell rises by 2 mV a sample.
function charge(samples, warming,    i) {
    for (i = 0; i < samples; i++) {
        current = 1480 + ripple(20)
        level += 2
        heat += warming
        sample()
    }
}

# The charger is plugged in at so many tenths of a kelvin.
function charge_at(tenths, samples) {
    heat = tenths
    charge(samples, 0)
}

BEGIN {
    seed = 2026
    level = 3790
    heat = 2611                                 # 12 degrees of frost
    split("0 16 21 5 18", offset, " ")

    print "F\t3"                                # the host asks for both; no sample yet
    stand(6, 0)                                 # at the fourth sample 8 and 9 are raised: both switches off
    print "S\t0\t1999\t2620\t3790\t3806\t3811\t3795\t3808"  # a thermistor wire came off: 11
    print "F\t3"                                # to ask again is no help
    stand(17, 3)                                # a hot-water bottle: 2662 is over 7 degrees of frost
    stand(6, 1)                                 # and after six such samples the amplifier may play
    play(28, 3)                                 # a sound check, which warms the pack
    print "S\t-1500\t2755\t2764\t3762\t3778\t3783"          # a bad plug, three cells: 9
    play(10, 2)                                 # six samples at 3 degrees or more: the pack may charge
    charge(24, 1)                               # the cells that are too high are bled in turn
    charge_at(2731, 3)                          # a draught, 0 degrees for three samples: not enough
    charge_at(2732, 2)                          # one tenth more ends the run
    charge_at(2731, 3)                          # three again
    print "S\t1490\t2731\t2740\t3880\t3890\t3890\t3890\t3890\r"  # a line with a carriage return: 17
    charge(1, 0)                                # the fourth: charge cold is raised, nobody is bled any more
    stand(5, 0)                                 # the charger sees its switch off
    heat = 2761                                 # 3 degrees less a little: not yet
    stand(8, 0)
    heat = 2762
    stand(5, 0)                                 # five samples are not six
    heat = 2761
    stand(1, 0)                                 # and the run is over
    heat = 2762
    stand(6, 0)                                 # six: charging again
    charge(30, 1)
    print "F\t2"                                # the market opens: play, don't charge
    play(25, 1)
    print "F\t3"                                # evening, back to the charger
    heat = 2705                                 # but the frost is back
    stand(6, -1)                                # charge cold again; it may still play
}
