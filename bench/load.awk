# Prints so many lines, the steps of so many groups in turn. A group's requests run one after the other; every eighth
# fails and is answered by its fallback, and every tenth is followed by a reading of the metrics. The requests are of the
# commands of a group in turn.
#
#   awk -v GROUPS=16 -v COMMANDS=1 -v LINES=1000000 -f load.awk

# The step of every group, of a command other than its own one where `further` is above 0, until there are enough lines.
function step(op, rest, further,    command) {
    now += 10
    for (group = 1; group <= GROUPS && printed < LINES; group++) {
        command = further ? sprintf(",\"command\":\"group-%d-%d\"", group, further) : ""
        printf("{\"op\":\"%s\",\"group\":\"group-%d\",\"now\":%d%s%s}\n", op, group, now, command, rest)
        printed++
    }
}

BEGIN {
    for (ticket = 1; printed < LINES; ticket++) {
        number = ",\"ticket\":" ticket
        further = (ticket - 1) % COMMANDS
        step("submit", ",\"arg\":\"order " ticket "\"", further)
        step("start", "")
        if (ticket % 8 == 0) {
            step("fail", number ",\"bad\":false")
            step("collect", number)
            step("fallback", number ",\"end\":\"success\",\"body\":\"none in stock\"")
        } else {
            step("finish", number ",\"body\":\"order " ticket " is packed\"")
        }
        step("collect", number)
        if (ticket % 10 == 0) {
            step("read", "", further)
        }
    }
}
