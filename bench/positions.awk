# Writes random boards in which the player has rolled: awk -v count=1000 -f positions.awk
# The same boards on each machine: the random numbers are a generator of its own (x -> 16807 x mod 2^31 - 1).

function below(n) {
    state = (state * 16807) % 2147483647
    return state % n
}

# Puts up to fifteen checkers of a side on places that the other does not hold.
function place_side(side,    left, place, number) {
    left = 15 - below(6)
    off[side] = 15 - left
    while (left > 0) {
        place = below(24) + 1
        if (on[place] * side < 0) continue
        number = below(3) + 1
        if (number > left) number = left
        on[place] += side * number
        left -= number
    }
}

BEGIN {
    state = 1008
    for (i = 0; i < count; i++) {
        for (place = 1; place <= 24; place++) on[place] = 0
        place_side(1)
        place_side(-1)
        line = "board:You:bob:5:0:0:0"
        for (place = 1; place <= 24; place++) line = line ":" on[place]
        line = line ":0:1:" below(6) + 1 ":" below(6) + 1 ":0:0:1:1:1:0:1:" (below(2) ? 1 : -1) \
            ":0:25:" off[1] ":" off[-1] ":0:0:0:0:0:0"
        print line
    }
}
