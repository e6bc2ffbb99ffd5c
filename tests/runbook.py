"""Holds docs/OPERATORS.md to the programs: what its runbook says is run, its figures are counted again, its commands are run in sh.

    python3 tests/runbook.py PROGRAM        PROGRAM: a built session program, as target/bin/program_session; program_capture stands beside it

Each test cites the words of the page that it speaks for, and fails also where the page no longer has them. Which mover a session's choice is comes
from the independent model (tests/model), never from the program. The last line is "N passed, M failed". It takes seconds.
"""
import os
import re
import subprocess
import sys
import tempfile
from collections import Counter, namedtuple

HERE = os.path.dirname(os.path.abspath(__file__))
sys.dont_write_bytecode = True       # the checkout stays as it is
sys.path.insert(0, os.path.join(HERE, "model"))
import capture  # noqa: E402
import model  # noqa: E402
import session  # noqa: E402
import streams  # noqa: E402

START = os.path.join(HERE, "..", "scripts", "start")
CAPTURES = os.path.join(HERE, "captures")
PROGRAM = CAPTURE = ""
with open(os.path.join(HERE, "..", "docs", "OPERATORS.md"), encoding="utf-8") as file:
    PAGE = file.read()

Line = namedtuple("Line", "event kind refusal server mark reads used")
PLACES = 3276
METHODS = ((model.HRW, 0), (model.RING, 0), (model.ROW_TABLE, 4096))
WORK, STAND = list(range(1, 9)), [9, 10]        # the movers of the page's counted figures
TESTS = []


def plain(text):
    """A text without line ends and marks of emphasis."""
    return " ".join(re.sub(r"[*`]", "", text).split())


def says(*words):
    """Marks a test of what the page says in these words."""
    def mark(test):
        TESTS.append((test, words))
        return test
    return mark


def counted(words):
    """A figure that was counted stands in the page in these words."""
    assert plain(words) in plain(PAGE), "the page doesn't say: " + words


# ---- events

def key(n):
    """The key of session n: all differ, as those of a day would."""
    return streams.connection(0x0A000001 + n // 7, 0x0A010001, 1024 + n, 443)


def packets(keys):
    return [b"\x01\0\0" + k for k in keys]


def ends(keys):
    return [b"\x02\0\0" + k for k in keys]


def of_kind(kind):
    return lambda *movers: [streams.with_server(kind, m) for m in movers]


add_working, remove_working, add_horizon, remove_horizon = map(of_kind, model.ROSTER_KINDS)


def roster(work, stand, method=model.HRW, rows=0):
    """The restart's events: configure, every mover into the horizon, those that work into work."""
    return [streams.with_settings(method, rows)] + add_horizon(*work, *stand) + add_working(*work)


# ---- the program, and what its lines say

def lines_of(text):
    return [Line(*map(int, line.split())) for line in text.splitlines()]


def run(*parts):
    """One session that gets the parts, lists of events, one after the other: the lines for each part."""
    done = subprocess.run([START, PROGRAM], input=b"".join(b"".join(p) for p in parts), stdout=subprocess.PIPE, check=True)
    lines = lines_of(done.stdout)
    assert len(lines) == sum(map(len, parts)), "not a line for each event"
    split = []
    for part in parts:
        split.append(lines[:len(part)])
        lines = lines[len(part):]
    return split


def accepted(*parts):
    for part in parts:
        for line in part:
            assert line.refusal == 0, "refused: %s" % (line,)


def servers(lines):
    return [line.server for line in lines]


def moved(before, after):
    """The places of the sessions that are led elsewhere."""
    return {i for i, (a, b) in enumerate(zip(before, after)) if a.server != b.server}


def marked(lines, *marks):
    """The places of the sessions whose packet got one of the marks."""
    return {i for i, line in enumerate(lines) if line.mark in marks}


def choice(k, movers, method=model.HRW, rows=0):
    return model.choice(method, movers, model.ranking_point(method, rows, k))


def taken(k, server, by, method=model.HRW, rows=0):
    """A session at a server would be taken by one of these movers."""
    return model.unsafe(method, server, by, model.ranking_point(method, rows, k))


K = [key(n) for n in range(1000)]
P = packets(K)


# ---- a restart

@says("Sessions without a record (last mark 2 or 4) are led as if there had been no restart",
      "Led elsewhere are exactly those whose choice over the working movers isn't the mover of their record",
      "The others stay, and are recorded again if a standby would take them")
def restart_after_a_day():
    for method, rows in METHODS:
        work, stand = [1, 2, 4, 5, 6, 7, 8, 9], [3, 10]
        day = [roster(WORK, STAND, method, rows), P[:700], add_working(9), P[300:], remove_working(3), P[:900], ends(K[:50] + K[:25]), P]
        parts = run(*day, P)
        accepted(*parts)
        before, unbroken = parts[-2], parts[-1]
        again = run(roster(work, stand, method, rows), P)
        accepted(*again)
        after = again[1]
        recorded = marked(before, 1, 3)
        for i, k in enumerate(K):
            if i in recorded:
                assert (after[i].server != before[i].server) == (choice(k, work, method, rows) != before[i].server), "session %d" % i
            else:
                assert after[i].server == unbroken[i].server, "session %d" % i
            assert (after[i].mark == 3) == taken(k, after[i].server, stand, method, rows), "mark of session %d" % i
        went = moved(before, after)
        assert went and went < recorded, "method %d: no session, or every recorded one, moved" % method


@says("a mover that joined after it was written takes them")
def restart_counted():
    parts = run(roster(WORK, STAND), P, P, add_working(9), P)
    accepted(*parts)
    first, second, last = parts[1], parts[2], parts[4]
    recorded = marked(first, 3)
    assert not moved(first, run(roster(WORK, STAND), P)[1]), "moved without a join"
    assert not moved(second, last), "the join moved a session"
    went = moved(last, run(roster(WORK + [9], [10]), P)[1])
    assert went == {i for i in recorded if taken(K[i], last[i].server, [9])}
    counted("%d sessions recorded" % len(recorded))
    counted("of the %d recorded sessions none moved in a restart before mover 9 joined, and %d in a restart after it" % (len(recorded), len(went)))


@says("The order within a list doesn't matter")
def order():
    for method, rows in METHODS:
        want = run(roster(WORK, STAND, method, rows), P)[1]
        for mixed in ([5, 10, 3, 8, 1, 9, 7, 2, 6, 4], list(range(10, 0, -1))):
            work = [m for m in mixed if m in WORK]
            got = run([streams.with_settings(method, rows)] + add_horizon(*mixed) + add_working(*work[3:] + work[:3]), P)
            accepted(*got)
            assert got[1] == want, "method %d, order %s" % (method, mixed)


@says("If they list the movers as they are, all are refused (10, 3, 4; tested)")
def restart_of_a_running_session():
    for method, rows in METHODS:
        same = roster(WORK, STAND, method, rows)
        parts = run(same, P, same, P)
        assert [line.refusal for line in parts[2]] == [10] + [3] * 10 + [4] * 8
        assert {line.used for line in parts[2] + parts[3]} == {parts[1][-1].used} and not moved(parts[1], parts[3])


@says("get refusal 7, or are led by too few movers and stay there")
def packets_before_the_roster_is_complete():
    before = run(roster(WORK, STAND), P)[1][:100]
    parts = run([streams.with_settings(1, 0)] + add_horizon(*WORK, *STAND), P[:100], add_working(1), P[:100], add_working(*WORK[1:]), P[:100])
    assert {line.refusal for line in parts[1]} == {7}
    early, late = parts[3], parts[5]
    assert set(servers(early)) == {1} and not moved(early, late)
    counted("Counted: after the first of eight, %d of 100 sessions moved, once each" % len(moved(before, early)))
    stages = run([streams.with_settings(1, 0)], *[add_horizon(m) + add_working(m) + P[:100] for m in WORK])[1:]
    moves, led = Counter(), before
    for stage in stages:
        now = [line for line in stage if line.kind == model.PACKET]
        moves.update(moved(led, now))
        led = now
    counted("these 100 moved %d times, one of them %d times" % (sum(moves.values()), max(moves.values())))


@says("A working mover forgotten: its sessions move. A standby forgotten: nobody moves, but no session is recorded for its sake")
def forgotten():
    before = run(roster(WORK, STAND), P)[1]
    less = run(roster(WORK[:7], STAND), P)[1]
    assert moved(before, less) == {i for i, line in enumerate(before) if line.server == 8}
    less = run(roster(WORK, [9]), P)[1]
    assert not moved(before, less)
    assert marked(less, 3) == {i for i, line in enumerate(before) if taken(K[i], line.server, [9])} < marked(before, 3)


@says("take the roster's events out of the kept ones, refused ones too, and send them in their order")
def roster_from_kept_events():
    new = P[:200]
    for name in ("mixed", "last", "returns", "kinds"):
        whole = [e for e in session.split(streams.stream(name)) if len(e) == model.EVENT_SIZE]
        for kept in (whole[:len(whole) * part // 6] for part in range(1, 7)):
            before, after = run(kept, new)[1], run([e for e in kept if model.ADD_WORKING <= e[0] <= model.CONFIGURE], new)[1]
            assert not set(new) & set(kept) and [line[2:5] for line in before] == [line[2:5] for line in after], name


# ---- mark 4

MANY = [key(n) for n in range(6000)]


def full(*more):
    """Two movers work, four stand by, 6,000 sessions: the table is full. The lines of the sessions, then those of further parts."""
    parts = run(roster([1, 2], [3, 4, 5, 6]), packets(MANY), *more)
    assert parts[1][-1].used == PLACES and len(marked(parts[1], 3)) == PLACES and marked(parts[1], 4)
    return parts[1:]


@says("Customers notice nothing yet: the packet is served, and each further packet asks for a place again",
      "a standby would change it, and the table is full: served, not recorded")
def mark_4_is_served():
    first, again = full(packets(MANY))
    accepted(first, again)
    fours = marked(first, 4)
    assert not moved(first, again) and marked(again, 4) == fours
    for i in fours:
        assert first[i].server == choice(MANY[i], [1, 2]) and taken(MANY[i], first[i].server, [3, 4, 5, 6])


@says("A join moves exactly the sessions with mark 4 that the new mover outranks")
def join_with_mark_4():
    first, _, after = full(add_working(3), packets(MANY))
    want = {i for i in marked(first, 4) if taken(MANY[i], first[i].server, [3])}
    assert want and moved(first, after) == want and {after[i].server for i in want} == {3}


@says("Mark 5 frees a place, marks 6 and 8 free none", "The opposite direction is another session")
def ends_free_places():
    first = full()[0]
    gone, waiting = sorted(marked(first, 3))[:40:4], sorted(marked(first, 4))
    opposite = [k[4:8] + k[:4] + k[10:12] + k[8:10] + k[12:] for k in (MANY[i] for i in gone)]
    asking = packets(MANY[i] for i in waiting)
    side = ends(MANY[i] for i in gone)
    _, none, closed, still, freed, asked, again = full(ends(opposite), side, asking, side, asking, asking)
    assert [(line.mark, line.used) for line in none] == [(6, PLACES)] * 10
    assert [(line.mark, line.used) for line in closed] == [(8, PLACES)] * 10
    assert [line.mark for line in still] == [4] * len(waiting)
    assert [(line.mark, line.used) for line in freed] == [(5, PLACES - n) for n in range(1, 11)]
    assert [line.mark for line in asked] == [3] * 10 + [4] * (len(waiting) - 10)
    assert [line.mark for line in again] == [1] * 10 + [4] * (len(waiting) - 10)
    assert servers(asked) == servers(again) == [first[i].server for i in waiting]


@says("No session moves. It ends the marks 4 that only this standby caused and frees no place",
      "a record stays until its second end or until its mover stops")
def standby_taken_out():
    first, out, after = full(remove_horizon(6), packets(MANY))
    accepted(out, after)
    assert not moved(first, after) and {line.used for line in out + after} == {PLACES}
    fours = marked(first, 4)
    still = {i for i in fours if taken(MANY[i], first[i].server, [3, 4, 5])}
    assert marked(after, 4) == still < fours and fours - still <= marked(after, 2)


@says("After step 3 a restart drops the records that no standby asks for any more. It moves nobody if no mover joined since the first packet")
def restart_with_fewer_standbys():
    first, _, after = full(remove_horizon(5, 6), packets(MANY))
    again = run(roster([1, 2], [3, 4]), packets(MANY))[1]
    assert not moved(first, again) and after[-1].used == PLACES
    asked = {i for i, line in enumerate(first) if taken(MANY[i], line.server, [3, 4])}
    assert marked(again, 3) == asked and again[-1].used == len(asked) < PLACES
    last = run(roster(WORK, STAND), P, remove_working(3, 5) + remove_horizon(10, 5), P)[3]
    assert marked(last, 1) and not moved(last, run(roster([1, 2, 4, 6, 7, 8], [3, 9]), P)[1]), "without a join, but with movers that stopped"


@says("A lost end can be sent late, twice where both were lost", "A live one loses its record at the second, as in a restart",
      "An end too many takes a live session's record away, as a restart would", "In return a session stays at its mover while it reads on")
def late_end_of_a_live_session():
    parts = run(roster(WORK, STAND), P, add_working(9), P, ends(K), P, ends(K), P)
    before, closed, after = parts[3], parts[5], parts[7]
    assert not moved(before, closed), "one end alone moves nobody"
    assert moved(before, after) == {i for i in marked(before, 1) if choice(K[i], WORK + [9]) != before[i].server} != set()


@says("Two front doors that share the sessions by their keys and get every event of a mover have twice the places and lead each session as one does")
def two_front_doors():
    doors = [slice(0, None, 2), slice(1, None, 2)]
    day = add_working(9), remove_working(3), add_working(10)
    for part in doors:
        mine, its = P[part], [x for change in day for x in (change, P[part])]
        one = run(roster(WORK, STAND), P, *[x for change in day for x in (change, P)])[1::2]
        for got, want in zip(run(roster(WORK, STAND), mine, *its)[1::2], one):
            assert [(a.server, a.mark) for a in got] == [(b.server, b.mark) for b in want[part]]
    first = full()[0]
    assert marked(first, 4)
    for part in doors:
        got = run(roster([1, 2], [3, 4, 5, 6]), packets(MANY[part]))[1]
        assert servers(got) == servers(first[part]) and not marked(got, 4)


# ---- sessions that close one side first

def marks(lines):
    return [line.mark for line in lines]


@says("The record keeps its place and goes on leading the session", "changes nothing and isn't remembered",
      "One that learns only that a session is over sends its end twice, at once",
      "A packet behind it, such as TCP's last acknowledgement, is a new session's: a record that it gets has no end to come, and stays as long")
def both_ends():
    for method, rows in METHODS:
        parts = run(roster(WORK, STAND, method, rows) + ends(K), P, ends(K), P, ends(K), P, ends(k for k in K for _ in range(2)))
        early, first, half, led, over, again, twice = parts
        recorded = marked(first, 3)
        assert recorded and marked(first, 2, 3) == set(range(1000)) and marks(early[-1000:]) == [6] * 1000
        assert marked(half, 8) == recorded == marked(led, 1) == marked(over, 5) and not moved(first, led)
        assert half[-1].used == led[-1].used == len(recorded) and over[-1].used == 0
        assert marks(again) == marks(first) and again[-1].used == len(recorded) and twice[-1].used == 0
        assert marked(twice[::2], 8) == recorded == marked(twice[1::2], 5)
        assert run(roster(WORK, STAND, method, rows), P, ends(K), ends(K), P, remove_working(*WORK))[-1][-1].used == 0


@says("With one that reports one only, records stay half-closed until their mover stops or a later session with the same key ends")
def one_end_only():
    parts = run(roster(WORK, STAND), *[x for n in range(0, 1000, 200) for x in (P[n:n + 200], ends(K[n:n + 200]))], *map(remove_working, WORK))
    lines = [line for part in parts[1:-8] for line in part]
    recorded = [line.server for line in lines if line.mark == 3]
    assert parts[-9][-1].used == len(recorded) == marks(lines).count(8) and 5 not in marks(lines)
    used = len(recorded)
    for mover, (stop,) in zip(WORK, parts[-8:]):
        used -= recorded.count(mover)
        assert stop.used == used
    half, later, ended = run(roster(WORK, STAND), P, ends(K), P, ends(K))[2:]
    assert marked(half, 8) == marked(later, 1) == marked(ended, 5) and len(marked(half, 8)) == len(recorded) and ended[-1].used == 0


def left(before, *between):
    """Sessions end, something happens, they send a packet and end again: those whose record is left. One more end, sent at once, frees its
    place. So does the first end of a new session with the same key, which that record leads until then."""
    written, last, led, freed = run(before + P, ends(K), *between, P, ends(K), P, ends(K))[-4:]
    behind = marked(last, 8)
    assert behind and behind == marked(written, 3) and last[-1].used == len(behind)
    assert behind <= marked(led, 1) and behind <= marked(freed, 5)
    twice = run(before + P, ends(K), *between, P, ends(k for k in K for _ in range(2)))[-1]
    assert marked(twice[::2], 8) == marked(twice[1::2], 5) == behind and set(marks(twice[1::2])) == {5, 6} and twice[-1].used == 0
    return behind


@says("a record that is written between a session's two ends is half-closed by the last of them, and stays",
      "finds room at last (mark 4 before), becomes unsafe since a further mover stands by, loses its mover, or lives through a restart",
      "A later session with the same key is led by it, with mark 1, and loses it at its first end already",
      "A front end that sends the last end twice leaves none behind (tested): the further one gets mark 5 there, and else mark 6",
      "a record that they get anew is [left behind](#sessions-that-close-one-side-first) at their last end")
def left_behind():
    assert left(roster(WORK, []), add_horizon(9)) == {i for i, k in enumerate(K) if taken(k, choice(k, WORK), [9])}
    at3 = {i for i, k in enumerate(K) if choice(k, WORK) == 3}
    assert left(roster(WORK, STAND), remove_working(3)) == at3
    # no room at first; then as many sessions end as wait for a place
    first = full()[0]
    waiting, gone = sorted(marked(first, 4)), sorted(marked(first, 3))
    asking, theirs = packets(MANY[i] for i in waiting), ends(MANY[i] for i in waiting)
    room = ends(MANY[i] for i in gone[-len(waiting):])
    none, _, _, got, last, freed = full(theirs, room, room, asking, theirs, theirs)[1:]
    assert marks(none) == [6] * len(waiting) and marks(got) == [3] * len(waiting)
    assert marks(last) == [8] * len(waiting) and last[-1].used == PLACES
    assert marks(freed) == [5] * len(waiting) and freed[-1].used == PLACES - len(waiting)
    # a restart after the first ends
    recorded = marked(run(roster(WORK, STAND), P)[1], 3)
    last = run(roster(WORK, STAND), P, ends(K))[2]
    assert marked(last, 8) == recorded and last[-1].used == len(recorded)


# ---- movers that stop

@says("No other session moves (proved: demand 3, with mark 4 choice_part)",
      "each session that it was the choice for takes a record instead, and stays at its new mover when it comes back",
      "remove working: it stands by; every record that names it goes")
def mover_stops():
    before, stop, after, _, back = run(roster(WORK, STAND), P, remove_working(3), P, add_working(3), P)[1:]
    accepted(before, stop, after, back)
    at3 = {i for i, line in enumerate(before) if line.server == 3}
    assert moved(before, after) == at3 and not moved(after, back)
    assert at3 <= marked(after, 3) and at3 <= marked(back, 1)
    freed = len(at3 & marked(before, 3))
    assert before[-1].used - stop[0].used == freed and after[-1].used == stop[0].used + len(at3)
    out = run(roster(WORK, STAND), P, remove_working(3) + remove_horizon(3), P)[3]
    assert servers(out) == servers(after)
    counted("Counted: %d sessions moved; used fell from %d to %d, then rose to %d with mover 3 standing by, to %d without"
            % (len(at3), before[-1].used, stop[0].used, after[-1].used, out[-1].used))
    assert len(at3) // freed == 5
    counted("took five times the places that they freed")
    first, _, last = full(remove_working(2), packets(MANY))
    assert moved(first, last) == {i for i, line in enumerate(first) if line.server == 2}


@says("No record is left", "with the same movers at work, a restart's", "packet while no mover works")
def no_mover_works():
    parts = run(roster(WORK, STAND), P, add_working(9), P, remove_working(*WORK, 9), P[:5], add_working(*WORK, 9), P)
    before, none, refused, after = parts[3], parts[4], parts[5], parts[7]
    assert none[-1].used == 0 and {(line.refusal, line.server) for line in refused} == {(7, 0)}
    assert moved(before, after) == {i for i in marked(before, 1, 3) if choice(K[i], WORK + [9]) != before[i].server} != set()


@says("If packets pass while only the first mover works, they are led to it, recorded there if another would take them, and stay")
def one_mover_works():
    parts = run(roster(WORK, STAND), P, remove_working(*WORK), add_working(1), P, add_working(*WORK[1:]), P)
    before, first, last = parts[1], parts[4], parts[6]
    assert set(servers(first)) == {1} and not moved(first, last)
    assert marked(first, 3) == {i for i, k in enumerate(K) if taken(k, 1, WORK + STAND)}
    counted("Counted: %d sessions moved, %d records" % (len(moved(before, last)), last[-1].used))


@says("A mover that enters the horizon and works at once can take sessions away", "They aren't revived when it comes back")
def straight_into_work():
    before, _, after = run(roster(WORK, STAND), P, add_horizon(11) + add_working(11), P)[1:]
    assert moved(before, after) == {i for i, line in enumerate(after) if line.server == 11} != set()
    parts = run(roster([1], [2]), P, add_working(2) + remove_working(1) + remove_horizon(1), P, add_horizon(1) + add_working(1), P)
    assert parts[2][1].used == 0 and servers(parts[5]) == [choice(k, [1, 2]) for k in K]


# ---- other refusals, and the lines

@says("configure with movers or records there", "send remove_working for each mover that works, remove_horizon for all")
def method_changed():
    parts = run(roster(WORK, STAND), P, roster(WORK, STAND, 3, 4096)[:1], P,
                remove_working(*WORK) + remove_horizon(*WORK, *STAND), roster(WORK, STAND, 3, 4096), P)
    assert (parts[2][0].refusal, parts[2][0].used) == (10, parts[1][-1].used) and not moved(parts[1], parts[3])
    accepted(*parts[4:])
    assert parts[4][-1].used == 0
    counted("from HRW to 4,096 rows: %d of 1,000" % len(moved(parts[1], parts[6])))


@says("bytes were lost or added, and records are read across their borders", "Cost: one more wrong record. Worked: refusal 0 again")
def out_of_step():
    for lost in range(1, 16):
        stream = b"".join(roster(WORK, STAND) + P[:50])[:-lost] + b"".join(P[:50])
        stream += bytes(16 - len(stream) % 16)
        done = subprocess.run([START, PROGRAM], input=stream + b"".join(P[:50]), stdout=subprocess.PIPE, check=True)
        lines = lines_of(done.stdout)
        accepted(lines[-50:])
        assert servers(lines[-50:]) == servers(lines[19:69])[:49] + [choice(K[49], WORK)], "%d bytes lost" % lost
        assert sum(line.refusal == 1 for line in lines) >= 40, "%d bytes lost: few are refused" % lost


@says("Used is always marks 3 less marks 5 less the records of movers that stopped")
def used_records():
    day = roster(WORK, STAND) + P[:600] + ends(K[:300:3] + K[:300:6]) + add_working(9) + P + remove_working(2, 9) + P[500:] + ends(K[::7]) + P
    records = {}
    for event, line in zip(day, run(day)[0]):
        k = event[3:]
        if line.mark == 3:
            records[k] = line.server
        elif line.mark == 5:
            del records[k]
        elif line.kind == model.REMOVE_WORKING:
            records = {other: s for other, s in records.items() if s != model.event_server(event)}
        assert line.used == len(records) and line.refusal == 0


@says("with a full disk behind standard output the session goes on, lines are cut or lost, and the status is 0",
      "the session ends with 141 at its next lines, also where the signal PIPE is ignored",
      "An input that can't be read (closed, a directory) ends the session at once, with 0")
def exit_status():
    stream = b"".join(roster(WORK, STAND) + P)
    if os.path.exists("/dev/full"):
        with open("/dev/full", "wb") as out:
            assert subprocess.run([START, PROGRAM], input=stream, stdout=out).returncode == 0
    for restored in (True, False):                  # Python ignores PIPE, and so does its child unless it is restored
        reader, writer = os.pipe()
        os.close(reader)
        got = subprocess.run([START, PROGRAM], input=stream, stdout=writer, restore_signals=restored).returncode
        os.close(writer)
        assert got == 141, "closed pipe: status %d" % got
    place = os.open(HERE, os.O_RDONLY)
    done = subprocess.run([START, PROGRAM], stdin=place, stdout=subprocess.PIPE)
    os.close(place)
    assert (done.returncode, done.stdout) == (0, b"")


# ---- the page's own commands, in sh

BLOCKS = re.findall(r"^```sh\n(.*?)^```$", PAGE, re.S | re.M)
FUNCTIONS, EXAMPLE, PIPE, ROSTER, TAKEN_OUT, CAPTURED = BLOCKS


def command(begin):
    """The one command of the page, between backticks, that begins so."""
    found = set(re.findall("`(%s[^`]*)`" % re.escape(begin), PAGE))
    assert len(found) == 1, "not one command that begins with %s: %s" % (begin, found)
    return found.pop()


def sh(script, folder, given=b""):
    done = subprocess.run(["sh", "-c", script], cwd=folder, input=given, stdout=subprocess.PIPE, stderr=subprocess.PIPE, timeout=60)
    assert done.returncode == 0 and not done.stderr, "sh says %d: %s" % (done.returncode, done.stderr.decode())
    return done.stdout


ONE = streams.connection(0x0A000001, 0x0A000002, 1027, 443)      # the page's session


@says("The last column needs these functions")
def functions():
    want = {"configure 1": streams.with_settings(1, 0), "configure 3 4096": streams.with_settings(3, 4096), "add_horizon 7": add_horizon(7)[0],
            "add_working 7": add_working(7)[0], "remove_working 7": remove_working(7)[0], "remove_horizon 7": remove_horizon(7)[0],
            "packet 10.0.0.1 1027 10.0.0.2 443 6": packets([ONE])[0], "end 10.0.0.1 1027 10.0.0.2 443 6": ends([ONE])[0]}
    for line in want:
        assert "`%s`" % line in PAGE, line
    for mover in (10, 255, 256, 2**31, 2**32 - 1):
        want["add_working %d" % mover] = add_working(mover)[0]
    want["packet 255.10.0.92 65535 37.0.10.13 0 255"] = packets([streams.connection(0xFF0A005C, 0x25000A0D, 65535, 0, 255)])[0]
    assert sh(FUNCTIONS + "\n".join(want), HERE) == b"".join(want.values())


@says("What can't be right is said and sends nothing")
def typing_errors():
    for line in ("add_horizon 4294967296", "add_horizon 20 21", "add_horizon 010", "add_horizon", "add_working x", "configure 300", "configure 3 70000", "configure",
                 "end 10.1.0.300 5 10.0.0.2 443 6", "packet 10.0.1 5 10.0.0.2 443 6", "packet 10.0.0.1 70000 10.0.0.2 443 6", "packet 10.0.0.1 5 10.0.0.2 443",
                 "packet 10.0.0.1 5 10.0.0.2 443 256", "packet 10.0.0.1 5 10.0.0.2.9 443 6", "packet 10.0.0.1 5 10.0.0.2 443 6 7"):
        done = subprocess.run(["sh", "-c", FUNCTIONS + line], stdout=subprocess.PIPE, stderr=subprocess.PIPE, timeout=60)
        assert done.returncode == 1 and not done.stdout and done.stderr.startswith(b"not sent"), line


@says("HRW, movers 7 and 9 stand by, 7 works, a packet, one side closes, 9 joins, the packet again, the other side closes, 7 stops, "
      "a packet of a new session with the same key")
def example():
    want = ([streams.with_settings(1, 0)] + add_horizon(7, 9) + add_working(7) + packets([ONE]) + ends([ONE]) + add_working(9) + packets([ONE])
            + ends([ONE]) + remove_working(7) + packets([ONE]))
    assert marks(line for line in run(want)[0] if line.kind < 3) == [3, 8, 1, 5, 2]
    assert EXAMPLE.rstrip().endswith("| ./jet explain")
    assert sh(FUNCTIONS + EXAMPLE.replace("./jet explain", "cat"), HERE) == b"".join(want)


@says("your events go into the same pipe as the sender's", "roster is a file that you keep up to date")
def running_session():
    """The page's pipe, roster and commands, with a second writer beside them; then its awk lines on what was answered."""
    typed = {"remove_horizon 12 >&3": remove_horizon(12), "end 10.0.0.1 1027 10.0.0.2 443 6 >&3": ends([ONE]), "add_horizon 12 >&3": add_horizon(12),
             "for m in 7 9; do add_working $m; done >&3": add_working(7, 9), "remove_working 3 >&3": remove_working(3),
             "{ remove_working 3; remove_horizon 3; } >&3": remove_working(3) + remove_horizon(3)}
    for line in typed:
        assert "`%s`" % line in PAGE, line
    typed["event 9 >&3"] = [bytes([9]) + bytes(15)]
    mine, sender = sum(typed.values(), roster([7, 9], [12])), packets(K[:256])
    begin = PIPE.replace("./jet session", "'%s' '%s'" % (START, PROGRAM))
    beside = "for i in %s; do dd if=sent bs=4096 status=none; done >&3 &" % " ".join("x" * 60)
    after = "exec 3>&-; wait; old=kept.1; mv kept $old; printf '\\5\\0\\0\\1' >>$old"      # a cut record, as a crash may leave one
    with tempfile.TemporaryDirectory() as folder:
        def content(name, given=None):
            with open(os.path.join(folder, name), "rb" if given is None else "wb") as one:
                return one.read() if given is None else one.write(given)
        content("roster", ROSTER.encode())
        content("sent", b"".join(sender))
        sh("\n".join([FUNCTIONS + begin + command(". ./roster"), beside, *typed, after, TAKEN_OUT]), folder)
        kept = session.split(content("kept.1")[:-4])
        assert Counter(kept) == Counter(mine + sender * 60), "an event was torn or lost"
        assert [e for e in kept if e in mine] == mine, "events changed their order"
        lines = run(kept)[0]
        assert lines_of(content("answers")) == lines, "the kept events give other lines"
        assert content("roster-events") == b"".join(e for e in kept if 3 <= e[0] <= 7)
        commands(folder, lines)


def commands(folder, lines):
    """The page's awk lines and `look`, on an answers file with these lines."""
    def prints(begin, chosen):
        got = sh(command(begin), folder).decode()
        assert sorted(lines_of(got)) == sorted(chosen), begin
    prints("awk '$3' ", [line for line in lines if line.refusal])
    prints("awk '$1 != NR'", [])
    first = next((line.event for line in lines if line.kind == 1 and not line.refusal), len(lines))
    prints("awk '!$3 && $2 == 1", [line for line in lines if line.kind == 3 and not line.refusal and line.event > first])
    wrong = Counter(line.kind for line in lines if line.refusal in (1, 2))
    got = sh(command("awk '$3 == 1"), folder).decode().splitlines()
    assert wrong and sorted(got) == sorted("byte 0 is %d: %d" % pair for pair in wrong.items())
    last = lines[-10000:]
    want = Counter("refusal %d" % line.refusal if line.refusal else "accepted" for line in last)
    want.update("mark %d" % line.mark for line in last if line.mark)
    got = sh(FUNCTIONS + "look", folder).decode().splitlines()
    assert sorted(got) == sorted(["%s: %d" % pair for pair in want.items()] + ["used now: %d" % last[-1].used]), got


@says("Marks 8 less marks 5 is the number of half-closed records",
      "too high once a mover stopped, whose records went without an end; then half_closed | wc -l has it",
      "for each session with a half-closed record of which nothing came among the last 100,000 events", "Each frees its place")
def half_closed_records():
    """The page's count, list and ends for half-closed records, on a day before and after movers stopped."""
    morning = roster(WORK, STAND) + P[:600] + ends(K[:300:3] + K[:300:6]) + add_working(9) + P + ends(K[::7]) + P[:200]
    evening = remove_working(2, 9) + P[500:] + ends(K[::5]) + [bytes([4]) + bytes(15)] + P[::9]
    for day, stopped in ((morning, False), (morning + evening, True)):
        lines = run(day)[0]
        records, half = {}, {}
        for event, line in zip(day, lines):
            k = event[3:]
            if line.mark == 3:
                records[k] = line.server
            elif line.mark == 5:
                del records[k], half[k]
            elif line.kind == model.REMOVE_WORKING and not line.refusal:
                gone = {other for other, s in records.items() if s == model.event_server(event)}
                records, half = ({other: x for other, x in one.items() if other not in gone} for one in (records, half))
            if line.mark == 8 or line.mark == 1 and k in half:
                half[k] = line.event
        with tempfile.TemporaryDirectory() as folder:
            answers = "".join("%d %d %d %d %d %d %d\n" % line for line in lines)
            for name, text in (("kept", b"".join(day + P[:3]) + bytes(5)), ("answers", answers.encode())):     # three and a bit aren't answered yet
                with open(os.path.join(folder, name), "wb") as out:
                    out.write(text)
            number = int(sh(command("awk '$5 == 8"), folder))
            assert half and (number > len(half) if stopped else number == len(half))
            assert int(sh(FUNCTIONS + command("half_closed |"), folder)) == len(half)
            for n in ("", "0", "1", "200", "700", str(len(day))):
                typed = [command("half_closed 1").replace("100000", n), command(". ./over").replace(">&3", "")]
                sent = session.split(sh(FUNCTIONS + "\n".join(typed), folder))
                want = {k for k, heard in half.items() if heard <= len(day) - int(n or 0)}
                assert sorted(sent) == sorted(ends(want)), "half_closed %s" % n
                freed = run(day, sent)[1]
                assert [(line.mark, line.used) for line in freed] == [(5, lines[-1].used - i) for i in range(1, len(sent) + 1)]
            assert len(day) > 700 and not want, "the last number leaves nobody"


@says("Fill up: head -c $((16 - $(wc -c <kept) % 16)) /dev/zero >&3")
def fill_up():
    with tempfile.TemporaryDirectory() as folder:
        for size in (1, 15, 16, 17, 1000):
            with open(os.path.join(folder, "kept"), "wb") as out:
                out.write(bytes(size))
            got = sh(command("head -c").replace(">&3", ""), folder)
            assert (size + len(got)) % 16 == 0 and 1 <= len(got) <= 16


# ---- captures

def stored(name):
    """A file of tests/captures."""
    with open(os.path.join(CAPTURES, name), "rb") as one:
        return one.read()


def captured(data, out=subprocess.PIPE):
    """What the capture program makes of a capture: its events, and its line."""
    done = subprocess.run([START, CAPTURE], input=data, stdout=out, stderr=subprocess.PIPE, check=True)
    return session.split(done.stdout or b""), done.stderr.decode()


def shown():
    """The lines of answers that the page shows of its capture."""
    return lines_of("\n".join(re.findall(r"^    ((?:\d+ ){6}\d+) .*127\.0\.0\.1", PAGE, re.M)))


@says("so the movers' events come first. Without them every packet gets refusal 7", "It says of the first packet and of the first end")
def from_a_capture():
    events, line = captured(stored("session.pcap"))
    assert b"".join(events) == stored("session.events") and line.encode() == stored("session.line")
    assert {(a.kind, a.refusal, a.mark) for a in run(events)[0]} == {(1, 7, 0), (2, 0, 6)}
    typed = CAPTURED.replace("./jet capture tests/captures/session.pcap", "'%s' '%s' <'%s/session.pcap' 2>line" % (START, CAPTURE, CAPTURES))
    with tempfile.TemporaryDirectory() as folder:
        assert typed.rstrip().endswith("| ./jet explain")
        got = session.split(sh(FUNCTIONS + typed.replace("./jet explain", "cat"), folder))
        with open(os.path.join(folder, "line"), encoding="utf-8") as told:
            assert told.read() == line
    assert got == roster([1], [2]) + events
    lines = run(got)[0]
    assert shown() == [next(a for a in lines if a.kind == kind) for kind in (1, 2)]


@says("Each side's FIN then ends that side's key, so that no record gets its second end, and records stay half-closed",
      "the clients' packets, and both ends under the client's key", "It counts as a new session's, and a record that it gets has no end to come")
def client_side():
    def turned(k):
        return k[4:8] + k[:4] + k[10:12] + k[8:10] + k[12:]

    def port(k, at):
        return int.from_bytes(k[at:at + 2], "big")
    typed = command("./jet capture morning.pcap | client_side").replace("./jet capture morning.pcap", "cat")
    service = int(typed.split()[-1])
    for name in ("session", "wire", "fragments", "big-endian-scapy"):
        events, want = captured(stored(name + ".pcap"))[0], []
        for event in events:
            k = event[3:]
            if port(k, 10) == service:
                want.append(event)
            elif port(k, 8) == service and event[0] == model.END:
                want += ends([turned(k)])
        assert want and len(want) < len(events), name
        assert session.split(sh(FUNCTIONS + typed, HERE, b"".join(events))) == want, name
    events = captured(stored("session.pcap"))[0]
    movers = roster([1], [2])
    both, one = run(movers + events)[0], run(movers + session.split(sh(FUNCTIONS + typed, HERE, b"".join(events))))[0]
    assert 5 not in marks(both) and 8 in marks(both) and both[-1].used == 1
    assert [m for m in marks(one) if m] == [3, 1, 1, 1, 8, 1, 5, 3] and one[-1].used == 1
    done = subprocess.run(["sh", "-c", FUNCTIONS + "client_side 65536"], stdin=subprocess.DEVNULL, stdout=subprocess.PIPE, stderr=subprocess.PIPE)
    assert (done.returncode, done.stdout, done.stderr) == (1, b"", b"not sent, not a port\n")


@says("No packet is read beyond its first 88 bytes")
def first_bytes():
    assert set(re.findall(r"-s (\d+)", PAGE)) == {"88"}
    for name, order in (("wire", "little"), ("short", "little"), ("big-endian", "big")):
        data, at = stored(name + ".pcap"), 24
        longer = first = data[:24]
        while at < len(data):       # each packet with 200 bytes more, and of that the first 88
            length = int.from_bytes(data[at + 8:at + 12], order)
            packet = data[at + 16:at + 16 + length] + bytes(range(1, 201))
            whole, cut = (data[at:at + 8] + n.to_bytes(4, order) + data[at + 12:at + 16] + packet[:n] for n in (len(packet), 88))
            longer, first, at = longer + whole, first + cut, at + 16 + length
        assert captured(longer) == captured(first) and len(captured(first)[0]) >= len(captured(data)[0]) > 0, name


@says("Emitted and skipped packets together are the packets read", "All events before it are written, and stand")
def line_of_counts():
    told = re.findall(r"^    (\d+ packets read, .*)$", PAGE, re.M)
    assert told == [captured(stored("wire.pcap"))[1].rstrip()]
    assert re.findall(r"^\| ([a-zIP4 ]*) \| .* \| .* \|$", PAGE.split("first of these that applies (proved: ")[1], re.M)[1:6] == \
        [name for name, _ in capture.REASONS]
    for number, words in capture.REFUSED.items():
        assert "| %d | %s |" % (number, words) in PAGE
    for name, words in (("pcapng", "this is pcapng"), ("nanoseconds", "this is a nanosecond capture")):
        line = captured(stored(name + ".pcap"))[1]
        assert "refused by 20 at byte 0: bad magic" in line and words in line and "editcap -F pcap" in line, line
    assert "refused by 21 at byte 0: truncated file header" in captured(b"")[1]
    events, line = captured(stored("truncated.pcap"))
    assert b"".join(events) == stored("truncated.events") and "refused by 22 at byte 869: truncated packet record" in line


@says("says that standard output didn't take all events: those are lost, the counts include them")
def lost_events():
    if os.path.exists("/dev/full"):
        with open("/dev/full", "wb") as out:
            line = captured(stored("session.pcap"), out)[1]
        assert line.startswith("11 packets read, 11 emitted;") and line.endswith("; standard output didn't take all events\n")


@says("An alarm?")
def links():
    heads = {re.sub("[^a-z0-9 -]", "", head.lower()).replace(" ", "-") for head in re.findall("^#+ (.*)$", PAGE, re.M)}
    assert set(re.findall(r"\]\(#([^)]*)\)", PAGE)) <= heads


def main(arguments):
    global PROGRAM, CAPTURE
    if len(arguments) != 1 or not os.path.isfile(arguments[0]):
        sys.exit("usage: runbook.py PROGRAM, a built session program, as target/bin/program_session")
    PROGRAM = os.path.abspath(arguments[0])
    CAPTURE = os.path.join(os.path.dirname(PROGRAM), "program_capture")
    failed = 0
    for test, words in TESTS:
        try:
            for phrase in words:
                counted(phrase)
            test()
        except (AssertionError, subprocess.SubprocessError) as fault:
            failed += 1
            print("tests/runbook.py: %s: %s" % (test.__name__, fault or "not as the page says"))
    print("%d passed, %d failed" % (len(TESTS) - failed, failed))
    sys.exit(failed != 0)


if __name__ == "__main__":
    main(sys.argv[1:])
