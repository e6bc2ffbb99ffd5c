# Says in a sentence what each event was and what became of it. Two kinds of lines come in, each in its own order: a record's
# bytes as od prints them, which begin with a blank, and the session program's lines: event, kind, refusal, server, mark, records
# read, records used. A pair is told as soon as both are there. `title` goes before all.

# the mover that a record names, as text: awk's own way to print numbers rounds those above 2^31
function named() { return sprintf("%.0f", (($11 * 256 + $12) * 256 + $13) * 256 + $14) }
function address(i) { return $i "." $(i + 1) "." $(i + 2) "." $(i + 3) }
function port(i) { return $i * 256 + $(i + 1) }
function session() {
    return address(11) ":" port(19) " to " address(15) ":" port(21) ", " ($23 == 6 ? "TCP" : $23 == 17 ? "UDP" : "protocol " $23)
}
# a mover leaves the list of standbys, or comes to its end
function stands(mover, there,  i, n) {
    for (i = 1; i <= standbys; i++) if (standby[i] != mover) standby[++n] = standby[i]
    if (there) standby[++n] = mover
    standbys = n + 0
    list = ""
    for (i = 1; i <= n; i++) list = list (i == 1 ? "" : ", ") standby[i]
    if (n == 1) list = "standby " list
    else if (n <= 8) list = "standbys " list
    else list = n " standbys"
}
# who would take an unsafe session
function takers() { return (standbys == 1 ? list : "one of the " list) " would take it once it joins" }
# why a session is safe
function safety() {
    if (standbys == 0) return "Safe, no record needed: nobody stands by."
    return "Safe, no record needed: " (standbys == 1 ? list " would not take it." : "none of the " list " would take it.")
}
# what a refused record asked for, as far as its bytes say
function asked() {
    if (NF < 23) return NF - 7 " bytes came, not 16"
    if (!($2 in what)) return "kind " $2 " is unknown"
    if ($2 <= 2) return what[$2] " of " session()
    if ($2 <= 6) return what[$2] " " named()
    return what[$2]
}
function packet() {
    if ($5 == 1) return "goes to mover " $4 ", as its record (place " $6 ") says: whichever mover joins, the session stays there."
    if ($5 == 2) return "goes to mover " $4 ". " safety()
    if ($5 == 3) return "goes to mover " $4 " and is recorded, because " takers() "."
    return "goes to mover " $4 ", and is NOT RECORDED, though " takers() ": the table is full."
}
# what an end did: the first on a record leaves it half-closed, the next takes it away
function ended() {
    if ($5 == 8) return ", the first on its record (place " $6 "), which is half-closed now: " \
        "it leads packets as before, and goes at the next end."
    if ($5 == 5) return ", the second on its record (place " $6 "), which goes."
    return ". It has no record: nothing changes."
}
function sentence() {
    if ($3 != 0) return "Refused: " ($3 in why ? why[$3] : "by number " $3) ". Nothing changes. (" asked() ")"
    if ($2 == 1) return "A packet of " session() ", " packet()
    if ($2 == 2) return "An end of " session() ended()
    if ($2 == 3) return "Mover " named() " comes out of the horizon and works."
    if ($2 == 4) return "Mover " named() " leaves work for the horizon, and every record that named it goes (" \
        before - $7 (before - $7 == 1 ? " record)." : " records).")
    if ($2 == 5) return "Mover " named() " stands by in the horizon."
    if ($2 == 6) return "Mover " named() " leaves the horizon."
    return "Configured: method " $11 " (" ($11 == 1 ? "HRW" : $11 == 2 ? "ring" : "row table, rows " port(12)) ")."
}
# each line is one write, so that it is there at once
function put(text) { print text "\n"; fflush() }
function tell() {
    if ($3 == 0 && $2 >= 3 && $2 <= 6) stands(named(), $2 == 4 || $2 == 5)
    put(sprintf("%-18s %s", $1 " " $2 " " $3 " " $4 " " $5 " " $6 " " $7, sentence()))
    before = $7
}
BEGIN {
    ORS = ""
    why[1] = "the record is malformed"; why[2] = "0 is no mover"; why[3] = "the mover works or stands by already"
    why[4] = "the mover doesn't stand by"; why[5] = "the mover doesn't work"; why[6] = "64 movers are held"
    why[7] = "NO MOVER WORKS"; why[8] = "it is led to a mover that DOESN'T WORK"
    why[9] = "a buffer has a wrong length"; why[10] = "movers or records are there, so the method CAN'T CHANGE"
    why[11] = "the roster isn't in its stated form"
    what[1] = "packet"; what[2] = "end"; what[3] = "add working"; what[4] = "remove working"; what[5] = "add horizon"
    what[6] = "remove horizon"; what[7] = "configure"
    stands("", 0)
    if (title != "") put(title)
    put("Each line: event, kind, refusal, mover, mark, records read, records used.\n")
}
/^ / { record[++records] = $0 }
/^[0-9]/ { line[++lines] = $0 }
{
    while (told < records && told < lines) {
        told++
        $0 = line[told] " " record[told]
        delete line[told]
        delete record[told]
        tell()
    }
}
END { if (!told) put("The input has no event.") }
