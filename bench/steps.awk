# Prints the lines of so many rounds. In a round each group submits a ticket, starts it, finishes it and collects it.
# Before the first round each group gets tickets that are finished and not collected, so many that with the one of the
# round it has as many as are to be held.
#
#   awk -v GROUPS=16 -v HELD=64 -v ROUNDS=1000 -f steps.awk

# The step of every group.
function step(op, rest) {
    now += 1
    for (group = 1; group <= GROUPS; group++) {
        printf("{\"op\":\"%s\",\"group\":\"group-%d\",\"now\":%d%s}\n", op, group, now, rest)
    }
}

# A ticket that is finished.
function finish(ticket) {
    step("submit", ",\"arg\":\"x\"")
    step("start", "")
    step("finish", ",\"ticket\":" ticket ",\"body\":\"y\"")
}

BEGIN {
    for (ticket = 1; ticket < HELD; ticket++) {
        finish(ticket)
    }
    for (last = ticket + ROUNDS; ticket < last; ticket++) {
        finish(ticket)
        step("collect", ",\"ticket\":" ticket)
    }
}
