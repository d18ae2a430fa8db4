# Functions that the scripts of this folder share. They read this file in front of their own text.

# The place on a way of `side` units that is sailed to and fro, after `way` units.
function there(way, side) {
    way %= 2 * side
    return way <= side ? way : 2 * side - way
}

# The instant so many seconds after the start of 2001.
function instant(second) {
    return sprintf("2001-01-%02d %02d:%02d:%02d", 1 + int(second / 86400), \
        int(second / 3600) % 24, int(second / 60) % 60, second % 60)
}

# The next number of a fixed random sequence, from `least` on, `range` different ones.
# Set `seed` first.
function step(least, range) {
    seed = (seed * 16807) % 2147483647
    return least + seed % range
}
