# A script of `fibs replay` with so many events: awk -v events=N [-v kind=mixed|repeats] -f events.awk
# mixed: a login, then boards that come in pieces, clicks, plain commands and lines served, over and over.
# repeats: a login, then boards by the thousand, and then the bytes one by one.
function say(line) { print line; done++ }
BEGIN {
    head = "board:You:bob:3:0:1"
    places = "0:-2:0:0:0:0:5:0:3:0:0:0:-5:5:0:0:0:-3:0:-5:0:0:0:0:2:0"
    print head ":" places ":1:0:0:0:0:1:1:1:0:1:-1:0:25:0:0:0:0:0:0:0:0"
    say("open")
    say("serve 1 1 1")
    say("text 1 ann 1041253132 localhost")
    say("text 2 ann 1 1 0 0 0 0 1 1 10 0 1 0 1 1500.00 0 0 0 0 0 UTC")
    say("deliver 10000")
    say("serve 1 1 1")
    say("serve 1 1 1")
    say("deliver 10000")
    if (kind == "repeats") {
        while (done < events / 2) say("repeat")
        while (done < events) say("deliver 1")
    } else {
        count = split("repeat;deliver 9;plain who;serve 1 1 1;repeat;deliver 400;click roll", turn, ";")
        for (i = 1; done < events; i = i % count + 1) say(turn[i])
    }
}
