# Writes lines as a backgammon server sends them: awk -v kind=boards|mixed|chat -v megabytes=50 -f traffic.awk
# The same lines on each machine: the random numbers are a generator of its own (x -> 16807 x mod 2^31 - 1).

function below(n) {
    state = (state * 16807) % 2147483647
    return state % n
}

function one_of(list,    words) {
    return substr_of(list, below(split(list, words, " ")) + 1)
}

function substr_of(list, i,    words) {
    split(list, words, " ")
    return words[i]
}

# A board some random moves after the start of a game.
function board(    i, place, moves, from, to, side, line, own, other) {
    split("0 -2 0 0 0 0 5 0 3 0 0 0 -5 5 0 0 0 -3 0 -5 0 0 0 0 2 0", place, " ")
    moves = below(60)
    for (i = 0; i < moves; i++) {
        from = below(24) + 2
        side = place[from] > 0 ? 1 : -1
        to = from - side * (below(6) + 1)
        if (place[from] != 0 && to > 1 && to < 26 && place[to] * side >= 0) {
            place[from] -= side
            place[to] += side
        }
    }
    line = "board:You:" one_of(names) ":" (below(8) ? below(25) + 1 : 9999) ":" below(12) ":" below(12)
    for (i = 1; i <= 26; i++) line = line ":" place[i]
    own = below(7)
    other = below(7)
    line = line ":" (below(2) ? 1 : -1) ":" own ":" (own ? below(6) + 1 : 0) ":" other ":" (other ? below(6) + 1 : 0)
    line = line ":" 2 ^ below(5) ":" below(2) ":" below(2) ":0:" (below(2) ? "1:-1" : "-1:1") \
        ":0:25:0:0:0:0:" below(5) ":0:0:0"
    return line
}

function address() {
    return below(256) "." below(256) "." below(256) "." below(256)
}

function who() {
    return "5 " one_of(names) " " one_of("- - " names) " - " below(2) " " below(2) \
        " " sprintf("%.2f", 1000 + below(100000) / 100) \
        " " below(50000) " " below(3000) " " (1000000000 + below(99999999)) " " address() \
        " " one_of("- 3DFiBs JavaFIBS2001") " -"
}

function talk(    i, text) {
    text = one_of("12 13 14 15") " " one_of(names)
    for (i = below(12); i >= 0; i--) text = text " " one_of(words)
    return text
}

function text(    i, line) {
    line = below(3) ? "" : "> "
    line = line one_of(names) " " one_of("rolls moves wins doubles accepts")
    for (i = below(6); i > 0; i--) line = line " " (below(24) + 1) "-" (below(24) + 1)
    return line "."
}

function any_line(    choice) {
    if (kind == "boards") return board()
    if (kind == "chat") return below(2) ? talk() : text()
    choice = below(10)
    if (choice < 3) return board()
    if (choice < 7) return who()
    return choice < 9 ? talk() : text()
}

BEGIN {
    state = 4321
    names = "ann bob eve GammonKing mgnu_advanced someplayer tom_the_dancer x zoe99"
    words = "hi hello nice roll good luck thanks what a game you should have doubled there"
    count = 5000
    for (i = 0; i < count; i++) pool[i] = any_line()
    left = megabytes * 1000000
    while (left > 0) {
        line = pool[below(count)]
        left -= length(line) + 2
        printf "%s\r\n", line
    }
}
