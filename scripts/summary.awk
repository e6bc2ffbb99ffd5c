# Sums up the session program's lines (event, kind, refusal, server, mark, records read, records used) on one page: what asks for
# someone first, then events, marks, refusals, the most records used, and packets for each mover. All numbers are printed as
# text or by %.0f: awk's %d stops at 2^31 in some. Every count is 0 first: some awks fail on an element that was never set.

BEGIN {
    for (i = 1; i <= 11; i++) { marks[i] = refusals[i] = 0; first_mark[i] = first_refusal[i] = "" }
    most = packets = refused = alarms = wrong = 0
}
{
    if ($3 != 0) { if (!refusals[$3]++) first_refusal[$3] = $1 }
    else if ($5 != 0) { if (!marks[$5]++) first_mark[$5] = $1 }
    if ($3 == 0 && $2 == 1) { packets++; led[$4]++ }
    if ($7 + 0 > most) { most = $7 + 0; reached = $1 }
    used = $7
}
function times(n) { return n == 1 ? "once" : sprintf("%.0f times", n) }
function alarm(what, n, first, meaning) {
    if (!n) return
    printf "ALARM: %s came %s, first at event %s: %s.\n", what, times(n), first, meaning
    alarms++
}
function row(text, n, after) { printf "  %-62s %13.0f%s\n", text, n, after }
function numbered(number, meaning, n, loud) { row(sprintf("%2d  %s", number, meaning), n, loud && n ? "  <== ALARM" : "") }
END {
    if (!NR) { print "The input has no event."; exit }
    alarm("mark 4", marks[4], first_mark[4], "the table was full, and such a session may move when a standby joins")
    alarm("refusal 7", refusals[7], first_refusal[7], "a packet was refused because no mover worked")
    alarm("refusal 8", refusals[8], first_refusal[8], "a packet was refused because it was led to a mover that didn't work")
    alarm("refusal 9", refusals[9], first_refusal[9], "a buffer has a wrong length: the machine or the program is faulty")
    alarm("refusal 11", refusals[11], first_refusal[11], "the roster isn't in its form: the machine or the program is faulty")
    alarm("refusal 10", refusals[10], first_refusal[10], "configure was refused, and the method stayed as it was")
    wrong = refusals[1] + refusals[2]
    if (wrong >= 10) alarm("refusals 1 and 2", wrong, refusals[1] ? first_refusal[1] : first_refusal[2], "the sender writes records wrongly, or bytes were lost")
    print alarms ? "docs/OPERATORS.md says what to do." : "No alarm: no mark 4, no refusal 7 to 11, refusals 1 and 2 fewer than ten times."

    for (i in refusals) refused += refusals[i]
    print "\nEvents"
    row("accepted", NR - refused)
    row("refused", refused)
    row("all", NR)

    print "\nMarks"
    numbered(1, "packet: led by its record", marks[1])
    numbered(2, "packet: chosen; no standby would change it", marks[2])
    numbered(3, "packet: chosen and recorded; a standby would change it", marks[3])
    numbered(4, "packet: a standby would change it; NOT RECORDED: no room", marks[4], 1)
    numbered(5, "end: the second on its record, which went", marks[5])
    numbered(6, "end: there was no record", marks[6])
    numbered(8, "end: the first on its record, half-closed until the next", marks[8])

    why[1] = "malformed record"; why[2] = "mover 0"; why[3] = "add to the horizon: the mover works or stands by already"
    why[4] = "the mover doesn't stand by"; why[5] = "remove working: the mover doesn't work"; why[6] = "64 movers are held"
    why[7] = "packet while NO MOVER WORKS"; why[8] = "packet led to a mover that DOESN'T WORK"; why[9] = "a buffer has a wrong length"
    why[10] = "configure with movers or records there"; why[11] = "the roster isn't in its form"
    print "\nRefusals" (refused ? "" : ": none")
    for (i = 1; i <= 11; i++) if (refusals[i]) numbered(i, why[i], refusals[i], i >= 7 || i <= 2 && wrong >= 10)

    print "\nRecords used"
    row("at most, of 3276 places", most, most ? "  first at event " reached : "")
    row("at the end", used)

    print "\nPackets for each mover" (packets ? "" : ": none")
    if (packets) printf "  %12s %20s %10s\n", "mover", "packets", "per cent"
    lost = fflush()
    for (i in led) printf "  %12s %20.0f %10.1f\n", i, led[i], 100 * led[i] / packets | "sort -n"
    if (packets) lost = close("sort -n") || lost
    if (lost) exit 2
}
