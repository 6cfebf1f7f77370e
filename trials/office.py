"""The rules of docs/RULES.md in their plainest form: each share is asked by itself, each list is walked from its front.

It shares nothing with the desk but those rules. Days are numbers counted from 1900-01-01 and moments are seconds counted from the
first of that day, as datetime counts them from there.
"""
import datetime

DAY = 86_400
FIRST_DAY = datetime.date(1900, 1, 1)
MOST_PLACES = 10**12
OFFICE = "OFFICE"
REFUSALS = {
    6: "OfficeOnly", 7: "PartyOnly", 8: "NoMeeting", 9: "Exists", 10: "ShortNotice", 11: "NoResolution", 12: "BadRange",
    13: "SelfNamed", 14: "BadInstructions", 15: "TooMany", 16: "NoSuchNumber", 17: "AlreadyEnded", 18: "NoRegister",
    19: "OtherRecord", 20: "Opened", 21: "NotOpened", 22: "Early", 23: "NoQuorum", 24: "NotPresent", 25: "NoRight",
    26: "PollOrdered", 27: "NoPoll", 28: "DemandTooSmall", 29: "PollNotOpen", 30: "PollClosed", 31: "NotClosed", 32: "Declared",
    33: "NotYours", 34: "AgainstInstruction", 35: "PollRunning",
}
OFFICE_VERBS = ("call", "presence", "open", "adjourn", "order", "start", "close", "declare", "register", "closed", "keys")


def day_of(text):
    return (datetime.date.fromisoformat(text) - FIRST_DAY).days


def moment_of(text):
    return day_of(text[:10]) * DAY + int(text[11:13]) * 3600 + int(text[14:16]) * 60 + int(text[17:])


def day_text(day):
    return (FIRST_DAY + datetime.timedelta(days=day)).isoformat()


def moment_text(moment):
    second = moment % DAY
    return "%sT%02d:%02d:%02d" % (day_text(moment // DAY), second // 3600, second // 60 % 60, second % 60)


def text_if_any(moment):
    return None if moment is None else moment_text(moment)


class Refused(Exception):
    """A request is refused, by a number."""


def refuse_first(cases):
    """Refuses by the lowest number whose condition holds; a condition is asked only where none of a lower number holds."""
    for number, holds in sorted(cases.items()):
        if holds():
            raise Refused(number)


class Days:
    """Working time (sections 327(3) and 1173)."""

    def __init__(self, closed):
        self.closed = frozenset(closed)

    def is_working(self, day):
        return (FIRST_DAY + datetime.timedelta(days=day)).weekday() < 5 and day not in self.closed

    def work(self, start, end):
        """The seconds of working days from `start` up to and without `end`."""
        days = range(start // DAY, end // DAY + 1) if start < end else ()
        return sum(max(0, min(end, (day + 1) * DAY) - max(start, day * DAY)) for day in days if self.is_working(day))

    def back(self, hours, moment):
        """The greatest moment from which so many hours of working time are left, and the first of all where there is none."""
        wanted, end = 3600 * hours, moment
        for day in range(moment // DAY, -1, -1):
            if self.is_working(day):
                if wanted <= end - day * DAY:
                    return end - wanted
                wanted -= end - day * DAY
            end = day * DAY
        return 0

    def is_late(self, poll):
        return self.work(poll["ordered"], poll["take"]) > 48 * 3600


class Session:
    """A session of a meeting: its appointed time, its opening, and who is present in it."""

    def __init__(self, appointed):
        self.appointed, self.opened, self.present = appointed, None, []


class Meeting:
    """A meeting, as it stands at a moment for which the closed days are these."""

    def __init__(self, notice):
        self.notice = notice
        self.sessions = [Session(moment_of(notice["appointed"]))]
        self.loaded, self.register = False, {}
        self.appointments, self.endings, self.authorities = [], [], []
        self.demands, self.polls, self.casts = [], {}, []

    @property
    def last(self):
        """The session to which the meeting was adjourned last, or its first."""
        return self.sessions[-1]

    @property
    def opened(self):
        """When the last session was opened."""
        return self.last.opened

    @property
    def present(self):
        """Who is present in the last session."""
        return self.last.present

    def shares(self, member):
        """How many shares a member has that are no treasury shares (section 726)."""
        row = self.register.get(member)
        return row["shares"] if row and row["kind"] != "treasury" else 0

    def is_kind(self, member, kind):
        return member in self.register and self.register[member]["kind"] == kind

    def has_authorised(self, corporation, person):
        return (corporation, person) in self.authorities

    # Until when appointments count, and before when endings (sections 327 and 330):

    def cutoffs_for_acts(self, days, session, now):
        """for the quorum and the demands of a session,"""
        first = self.sessions[0]
        return days.back(48, session.appointed), now if first.opened is None else first.opened

    def cutoffs_for_votes(self, days, session, now):
        """for votes in a session,"""
        return days.back(48, session.appointed), now if session.opened is None else session.opened

    def cutoffs(self, days, poll, now):
        """and for votes on a poll."""
        if days.is_late(poll):
            return days.back(24, poll["take"]), poll["take"]
        return self.cutoffs_for_votes(days, self.sessions[poll["session"] - 1], now)

    def governing(self, cutoffs, member, place):
        """The appointment that governs a share: the last that counts, unless its ending counts (section 324)."""
        until, before = cutoffs
        last = None
        for given in self.appointments:
            if given["member"] == member and given["moment"] <= until and given["from"] <= place <= given["to"]:
                last = given
        for ended in self.endings if last else ():
            if ended["member"] == member and ended["number"] == last["number"] and ended["moment"] < before:
                return None
        return last

    def governs(self, cutoffs, party, member, place):
        given = self.governing(cutoffs, member, place)
        return given is not None and given["proxy"] == party

    def places(self, member):
        return range(1, self.shares(member) + 1)

    def capacities(self, days, party, now):
        cutoffs = self.cutoffs_for_acts(days, self.last, now)
        found = [("member", party)] if self.is_kind(party, "individual") else []
        found += [("rep", c) for c in self.register if self.is_kind(c, "corporation") and self.has_authorised(c, party)]
        return found + [
            ("proxy", m) for m in self.register if any(self.governs(cutoffs, party, m, place) for place in self.places(m))
        ]

    def has_quorum(self, days, now):
        """Section 318: one person with a capacity, or two, but not both with the same one alone."""
        holders = sum(1 for row in self.register.values() if row["kind"] != "treasury")
        people = [found for found in (self.capacities(days, party, now) for party in self.present) if found]
        if holders < 2:
            return holders == 1 and len(people) > 0
        return any(
            not (len(one) == 1 and one == other and one[0][0] != "member")
            for at, one in enumerate(people)
            for other in people[:at]
        )

    def is_demanded(self, days, resolution, now):
        """Section 321: five holders of demanding shares, or a tenth of all shares, or of all that is paid up."""
        cutoffs = self.cutoffs_for_acts(days, self.last, now)
        shares = holders = pence = all_shares = all_pence = 0
        for member, row in self.register.items():
            demanding = [
                place for place in self.places(member) if self.demands_share(cutoffs, resolution, member, place)
            ]
            shares, holders = shares + len(demanding), holders + (len(demanding) > 0)
            pence += len(demanding) * row["paid"]
            all_shares += self.shares(member)
            all_pence += self.shares(member) * row["paid"]
        return shares > 0 and (holders >= 5 or 10 * shares >= all_shares or 10 * pence >= all_pence)

    def demands_share(self, cutoffs, resolution, member, place):
        asked = (len(self.sessions), resolution)
        parties = [party for session, wanted, party in self.demands if (session, wanted) == asked]
        given = self.governing(cutoffs, member, place)
        return (
            (self.is_kind(member, "individual") and member in parties)
            or (self.is_kind(member, "corporation") and any(self.has_authorised(member, party) for party in parties))
            or (given is not None and given["proxy"] in parties)
        )

    def cast_on(self, given, resolution, voter, capacity, member, place):
        """The way of a voter's last record that covers a share, governed by that appointment, in a capacity."""
        way = None
        for cast in self.casts:
            if cast["voter"] != voter or cast["resolution"] != resolution:
                continue
            if cast["as"] == "instructed":
                told = given["instructions"][resolution - 1] if given and given["proxy"] == voter else "free"
                if capacity == "proxy" and told != "free":
                    way = told
            elif cast["as"] == capacity and cast["member"] == member and cast["from"] <= place <= cast["to"]:
                way = cast["way"]
        return way

    def valid_vote(self, cutoffs, resolution, member, place):
        """The valid vote of a share, by the first rule that applies (sections 284, 323 and 324A)."""
        given = self.governing(cutoffs, member, place)
        cast = lambda voter, capacity: self.cast_on(given, resolution, voter, capacity, member, place)
        if self.is_kind(member, "individual") and cast(member, "member"):
            return cast(member, "member")
        if self.is_kind(member, "corporation"):
            ways = {cast(person, "rep") for corporation, person in self.authorities if corporation == member} - {None}
            if ways:
                return ways.pop() if len(ways) == 1 else None
        if given is not None and cast(given["proxy"], "proxy"):
            way, told = cast(given["proxy"], "proxy"), given["instructions"][resolution - 1]
            return way if told in ("free", way) else None
        return None

    def tally(self, days, resolution, now):
        cutoffs = self.cutoffs(days, self.polls[resolution], now)
        votes = [
            self.valid_vote(cutoffs, resolution, member, place) for member in self.register for place in self.places(member)
        ]
        return {way: votes.count(way) for way in ("for", "against", "withheld")} | {"eligible": len(votes)}

    def result(self, resolution, tally):
        """A tally, and whether it carries the resolution (sections 282 and 283)."""
        votes_for, against = tally["for"], tally["against"]
        if self.notice["resolutions"][resolution - 1][0] == "special":
            return tally | {"carried": votes_for + against > 0 and 4 * votes_for >= 3 * (votes_for + against)}
        return tally | {"carried": votes_for > against}


class Office:
    """The whole office. `answer` makes a call, and gives the fields of its reply."""

    def __init__(self):
        self.days, self.meetings = Days(()), {}

    def answer(self, now, caller, meeting, verb, body):
        try:
            return self.accept(now, caller, meeting, verb, body)
        except Refused as refused:
            number = refused.args[0]
            return {"code": number, "refused": REFUSALS[number]}

    def accept(self, now, caller, meeting, verb, body):
        found = self.meetings.get(meeting)
        refuse_first({
            6: lambda: caller != OFFICE and verb in OFFICE_VERBS,
            7: lambda: caller == OFFICE and verb not in OFFICE_VERBS,
            8: lambda: verb not in ("call", "closed") and found is None,
        })
        if verb in ("call", "closed"):
            return getattr(self, verb)(meeting, body)
        return getattr(self, verb)(found, now, caller, body)

    # ---- the office's requests

    def closed(self, meeting, body):
        days = Days(day_of(text) for text in body["days"])
        same, self.days = days.closed == self.days.closed, days
        return {"ok": "same" if same else "loaded"}

    def call(self, meeting, body):
        clear_days = day_of(body["appointed"][:10]) - day_of(body["given"]) - 1
        refuse_first({
            9: lambda: meeting in self.meetings,
            10: lambda: clear_days < (21 if (body["company"], body["kind"]) == ("public", "annual") else 14),
        })
        self.meetings[meeting] = Meeting(body | {"meeting": meeting})
        return {"ok": "called"}

    def register(self, m, now, caller, body):
        record = moment_of(m.notice["record"])
        refuse_first({
            19: lambda: moment_of(body["record"]) != record,
            20: lambda: m.sessions[0].opened is not None,
            22: lambda: now < record,
        })
        rows = {row[0]: dict(zip(("kind", "name", "shares", "paid"), row[1:])) for row in body["rows"]}
        same = m.loaded and rows == m.register
        m.loaded, m.register = True, rows
        return {"ok": "same" if same else "loaded"}

    def presence(self, m, now, caller, body):
        if body["party"] not in m.present:
            m.present.append(body["party"])
        return {"ok": "noted"}

    def open(self, m, now, caller, body):
        refuse_first({
            18: lambda: not m.loaded,
            20: lambda: m.opened is not None,
            22: lambda: now < m.last.appointed,
            23: lambda: not m.has_quorum(self.days, now),
        })
        m.last.opened = now
        return {"ok": "opened"}

    def adjourn(self, m, now, caller, body):
        appointed = moment_of(body["appointed"])
        is_running = lambda poll: poll["closed"] is None and (poll["started"] is not None or not self.days.is_late(poll))
        refuse_first({
            15: lambda: len(m.sessions) >= 10,
            21: lambda: m.opened is None,
            22: lambda: appointed <= now,
            35: lambda: any(is_running(poll) for poll in m.polls.values()),
        })
        m.sessions.append(Session(appointed))
        return {"number": len(m.sessions), "ok": "adjourned"}

    def order(self, m, now, caller, body):
        resolution = body["resolution"]
        refuse_first({
            11: lambda: is_no_resolution(m, body),
            21: lambda: m.opened is None,
            22: lambda: moment_of(body["take"]) < now,
            26: lambda: resolution in m.polls,
            28: lambda: not body["chair"] and not m.is_demanded(self.days, resolution, now),
        })
        poll = {"session": len(m.sessions), "ordered": now, "take": moment_of(body["take"]), "chair": body["chair"]}
        m.polls[resolution] = poll | {"started": None, "closed": None, "declared": None}
        return {"ok": "ordered"}

    def start(self, m, now, caller, body):
        poll = m.polls.get(body["resolution"])
        refuse_first({
            9: lambda: has(poll, "started"),
            11: lambda: is_no_resolution(m, body),
            22: lambda: poll is not None and now < poll["take"],
            27: lambda: poll is None,
        })
        poll["started"] = now
        return {"ok": "started"}

    def close(self, m, now, caller, body):
        poll = m.polls.get(body["resolution"])
        refuse_first({
            11: lambda: is_no_resolution(m, body),
            27: lambda: poll is None,
            29: lambda: not has(poll, "started"),
            30: lambda: has(poll, "closed"),
        })
        poll["closed"] = now
        return {"ok": "closed"}

    def declare(self, m, now, caller, body):
        poll = m.polls.get(body["resolution"])
        refuse_first({
            11: lambda: is_no_resolution(m, body),
            27: lambda: poll is None,
            31: lambda: not has(poll, "closed"),
            32: lambda: has(poll, "declared"),
        })
        poll["declared"] = m.tally(self.days, body["resolution"], now)
        return m.result(body["resolution"], poll["declared"]) | {"ok": "declared"}

    # ---- the parties' requests

    def notice(self, m, now, caller, body):
        resolutions = [
            {"kind": kind, "number": number, "poll": self.noticed(m, number, now), "text": text}
            for number, (kind, text) in enumerate(m.notice["resolutions"], 1)
        ]
        told = {name: m.notice[name] for name in ("company", "given", "kind", "meeting", "record")}
        sessions = [self.noticed_session(session) | {"number": at} for at, session in enumerate(m.sessions, 1)]
        told |= self.noticed_session(m.sessions[0]) | {"ok": "notice", "register": m.loaded, "resolutions": resolutions}
        return told | ({"sessions": sessions} if len(sessions) > 1 else {})

    def noticed_session(self, session):
        return {
            "appointed": moment_text(session.appointed),
            "cutoff": moment_text(self.days.back(48, session.appointed)),
            "opened": text_if_any(session.opened),
        }

    def noticed(self, m, number, now):
        poll = m.polls.get(number)
        if poll is None:
            return None
        moments = {name: text_if_any(poll[name]) for name in ("closed", "ordered", "started", "take")}
        return moments | {
            "chair": poll["chair"],
            "cutoff": moment_text(m.cutoffs(self.days, poll, now)[0]),
            "late": self.days.is_late(poll),
            "result": m.result(number, poll["declared"]) if has(poll, "declared") else None,
        } | ({"session": poll["session"]} if len(m.sessions) > 1 else {})

    def mine(self, m, now, caller, body):
        row = m.register.get(caller)
        presences = [at for at, session in enumerate(m.sessions, 1) if caller in session.present]
        return ({"presences": presences} if len(m.sessions) > 1 else {}) | {
            "authorised": [
                {"corporation": c, "shares": m.shares(c) if m.is_kind(c, "corporation") else 0}
                for c, person in m.authorities
                if person == caller
            ],
            "casts": [{name: it[name] for name in it if name != "voter"} for it in m.casts if it["voter"] == caller],
            "demands": [resolution for session, resolution, party in m.demands if party == caller],
            "given": [self.given(m, it) for it in m.appointments if it["member"] == caller],
            "meeting": m.notice["meeting"],
            "ok": "mine",
            "persons": [person for c, person in m.authorities if c == caller],
            "present": caller in m.present,
            "received": [self.received(m, it, now) for it in m.appointments if it["proxy"] == caller],
            "row": row,
        }

    def use(self, m, given):
        return "meeting" if given["moment"] <= self.days.back(48, m.last.appointed) else "later polls only"

    def given(self, m, given):
        ended = [it["moment"] for it in m.endings if (it["member"], it["number"]) == (given["member"], given["number"])]
        told = {name: given[name] for name in ("from", "instructions", "number", "proxy", "to")}
        return told | {
            "ended": moment_text(ended[0]) if ended else None,
            "received": moment_text(given["moment"]),
            "use": self.use(m, given),
        }

    def received(self, m, given, now):
        told = {name: given[name] for name in ("from", "instructions", "member", "to")}
        if len(m.sessions) > 1:
            told["sessions"] = [self.governed(m, given, at, session, now) for at, session in enumerate(m.sessions, 1)]
        return told | {
            "governs": runs(m, m.cutoffs_for_votes(self.days, m.last, now), given),
            "polls": [
                {"governs": runs(m, m.cutoffs(self.days, poll, now), given), "resolution": number}
                for number, poll in sorted(m.polls.items())
                if self.days.is_late(poll)
            ],
            "received": moment_text(given["moment"]),
        }

    def governed(self, m, given, number, session, now):
        return {
            "acts": runs(m, m.cutoffs_for_acts(self.days, session, now), given),
            "governs": runs(m, m.cutoffs_for_votes(self.days, session, now), given),
            "session": number,
        }

    def appoint(self, m, now, caller, body):
        own = [it for it in m.appointments if it["member"] == caller]
        refuse_first({
            12: lambda: is_bad_range(body),
            13: lambda: body["proxy"] == caller,
            14: lambda: len(body["instructions"]) != len(m.notice["resolutions"]),
            15: lambda: len(own) >= 256,
        })
        given = body | {"member": caller, "number": len(own) + 1, "moment": now}
        m.appointments.append(given)
        return {"number": given["number"], "ok": "appointed", "use": self.use(m, given)}

    def end(self, m, now, caller, body):
        number = body["number"]
        refuse_first({
            16: lambda: not any((it["member"], it["number"]) == (caller, number) for it in m.appointments),
            17: lambda: any((it["member"], it["number"]) == (caller, number) for it in m.endings),
        })
        m.endings.append({"member": caller, "number": number, "moment": now})
        return {"number": number, "ok": "ended"}

    def authorise(self, m, now, caller, body):
        stands = m.has_authorised(caller, body["person"])
        refuse_first({
            13: lambda: body["person"] == caller,
            15: lambda: not stands and sum(c == caller for c, _ in m.authorities) >= 64,
        })
        if not stands:
            m.authorities.append((caller, body["person"]))
        return {"ok": "noted"}

    def attend(self, m, now, caller, body):
        return self.presence(m, now, caller, {"party": caller})

    def demand(self, m, now, caller, body):
        resolution = body["resolution"]
        refuse_first({
            11: lambda: is_no_resolution(m, body),
            18: lambda: not m.loaded,
            21: lambda: m.opened is None,
            24: lambda: caller not in m.present,
            25: lambda: not m.capacities(self.days, caller, now),
            26: lambda: resolution in m.polls,
        })
        demanded = (len(m.sessions), resolution, caller)
        if demanded not in m.demands:
            m.demands.append(demanded)
        return {"ok": "noted"}

    def refuse_vote(self, m, caller, body, others):
        """Refuses a vote by what is asked of each vote, and by these other conditions."""
        resolution = body["resolution"]
        poll = m.polls.get(resolution)
        refuse_first(others | {
            11: lambda: is_no_resolution(m, body),
            15: lambda: sum((it["voter"], it["resolution"]) == (caller, resolution) for it in m.casts) >= 1024,
            18: lambda: not m.loaded,
            27: lambda: poll is None,
            29: lambda: not has(poll, "started"),
            30: lambda: has(poll, "closed"),
        })

    def cast(self, m, now, caller, body):
        member, capacity = body["member"], body["as"]
        governing = lambda place: m.governing(
            m.cutoffs(self.days, m.polls[body["resolution"]], now), member, place)
        places = range(body["from"], min(body["to"], m.shares(member)) + 1)
        may_vote = {
            "member": lambda: caller == member and m.is_kind(member, "individual"),
            "rep": lambda: m.is_kind(member, "corporation") and m.has_authorised(member, caller),
            "proxy": lambda: True,
        }
        is_governed = lambda place: governing(place) is not None and governing(place)["proxy"] == caller
        told = lambda place: governing(place)["instructions"][body["resolution"] - 1]
        self.refuse_vote(m, caller, body, {
            12: lambda: is_bad_range(body),
            25: lambda: not may_vote[capacity](),
            33: lambda: body["to"] > m.shares(member) or capacity == "proxy" and not all(map(is_governed, places)),
            34: lambda: capacity == "proxy" and any(told(place) not in ("free", body["way"]) for place in places),
        })
        m.casts.append(body | {"voter": caller})
        return {"ok": "recorded"}

    def instructed(self, m, now, caller, body):
        resolution = body["resolution"]

        def has_instruction():
            cutoffs = m.cutoffs(self.days, m.polls[resolution], now)
            given = (m.governing(cutoffs, member, place) for member in m.register for place in m.places(member))
            return any(it and it["proxy"] == caller and it["instructions"][resolution - 1] != "free" for it in given)

        self.refuse_vote(m, caller, body, {33: lambda: not has_instruction()})
        m.casts.append({"as": "instructed", "resolution": resolution, "voter": caller})
        return {"ok": "recorded"}


def has(poll, field):
    return poll is not None and poll[field] is not None


def is_no_resolution(m, body):
    return not 1 <= body["resolution"] <= len(m.notice["resolutions"])


def is_bad_range(body):
    return not 1 <= body["from"] <= body["to"] <= MOST_PLACES


def runs(m, cutoffs, given):
    """The runs of shares that an appointment governs, each as long as may be."""
    found = []
    for place in m.places(given["member"]):
        if m.governing(cutoffs, given["member"], place) is not given:
            continue
        if found and found[-1][1] == place - 1:
            found[-1][1] = place
        else:
            found.append([place, place])
    return found
