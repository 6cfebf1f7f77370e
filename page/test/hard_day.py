#!/usr/bin/python3
"""page/test/hard_day.py PROGRAM [CHAPTER ..]: what goes wrong around a meeting, by clicking, with two browsers. Each chapter has a meeting of its own.

What each meeting needs is asked of the desk without a browser, with its clock six days behind: the calls, and the appointments that
have to come before the cutoff. Then the registers are loaded, and the clocks are those of the machine. Each meeting is appointed for 70
minutes ago, so it can be opened at once.
"""
import json
import os
import sys
import time
from datetime import datetime, timedelta

from selenium.webdriver.common.keys import Keys

from stage import BEHIND, REGISTER, ZONE, check, hold, tell

MOST_VOTES = 1024
COUNT = int(os.environ.get("MEMBERS", "1100"))
MANY = [f"X{number}" for number in range(1, COUNT + 1)]
BOUND = COUNT // 5
PARTIES = ["OFFICE", "LOOK", "M1", "M2", "C1", "P", "R", "Q"]
NOW = datetime.now(ZONE).replace(microsecond=0, tzinfo=None)
APPOINTED = NOW - timedelta(minutes=70)
RECORD = (NOW - timedelta(days=1)).isoformat()


def call(desk, meeting, *resolutions, appointed=APPOINTED):
    given = str((appointed - timedelta(days=21)).date())
    desk.ask("OFFICE", meeting, "call", {"company": "private", "kind": "general", "given": given, "appointed": appointed.isoformat(), "record": RECORD, "resolutions": resolutions})


def opened(desk, meeting):
    for party in ("M1", "M2"):
        desk.ask("OFFICE", meeting, "presence", {"party": party})
    desk.ask("OFFICE", meeting, "open")


def start(desk, meeting, *numbers):
    """Polls on resolutions, whose voting is open then."""
    take = datetime.now(ZONE).replace(microsecond=0, tzinfo=None) + timedelta(seconds=2)
    for number in numbers:
        desk.ask("OFFICE", meeting, "order", {"resolution": number, "take": take.isoformat(), "chair": True})
    time.sleep(2.5)
    for number in numbers:
        desk.ask("OFFICE", meeting, "start", {"resolution": number})


def finish(desk, meeting, *numbers):
    for verb in ("close", "declare"):
        for number in numbers:
            desk.ask("OFFICE", meeting, verb, {"resolution": number})


def cast(desk, party, meeting, number, way, upto, **more):
    desk.ask(party, meeting, "cast", {"resolution": number, "as": "member", "member": party, "from": 1, "to": upto, "way": way, **more})


class GoesOnAsking:
    """Seventy minutes after the appointed time, with no poll, the page still sees what happens."""

    meeting, title = "DEAF", "the page goes on asking"
    resolutions = [["ordinary", "To receive the accounts"], ["ordinary", "To thank the chair"]]

    def play(self, desk, one, other):
        opened(desk, self.meeting)
        one.enter("M1", self.meeting)
        one.reads("#resolution-1 .stage", "No poll")
        begun = time.time()
        start(desk, self.meeting, 1)
        one.reads("#resolution-1 .stage", "The voting is open", 75)
        tell(f"a poll was shown by itself after {time.time() - begun:.0f} seconds")
        check(time.time() - begun > 10, "it asked once a minute, where nothing happened")
        finish(desk, self.meeting, 1)
        one.wait("#resolution-1 .result")

        tell("the button, and a tab that comes to the front")
        time.sleep(1)
        start(desk, self.meeting, 2)
        check("No poll" in one.find("#resolution-2 .stage").text, "a minute has not passed")
        one.click("#refresh")
        one.reads("#resolution-2 .stage", "The voting is open", 5)
        one.said("This is what the desk had on")
        one.driver.minimize_window()
        finish(desk, self.meeting, 2)
        time.sleep(7)
        check(not one.all("#resolution-2 .result"), "a page that nobody sees does not ask")
        one.driver.set_window_rect(0, 0, 1100, 900)
        one.wait("#resolution-2 .result", 3)


class SeesOthers:
    """What others do amid a poll, and what the same person does in another tab, is seen without a change of the notice."""

    meeting, title = "OTHERS", "what others do is seen"
    resolutions = [["ordinary", "To receive the accounts"]]

    def play(self, desk, one, other):
        opened(desk, self.meeting)
        start(desk, self.meeting, 1)
        one.enter("R", self.meeting)
        one.reads("#resolution-1", "You have no shares to vote on here.")
        other.enter("C1", self.meeting)
        other.type("#person", "R")
        other.click("#authorise-send")
        other.sure("R is a name that this desk does not check.")
        other.said("R is authorised.")
        one.wait("#vote-1-rep-C1", 8)
        one.reads("#persons", "C1 has authorised you, for 50 shares.")

        tell("the same person in a second tab")
        other.enter("R", self.meeting)
        other.click("#vote-1-rep-C1-way-against")
        other.click("#vote-1-rep-C1-send")
        other.said("against on 50 shares")
        one.reads("#resolution-1 .recorded", "against on 50 shares (1 to 50)", 8)


class EndsWell:
    """What used to leave a person with a page that did nothing more."""

    meeting, title = "FAULTS", "faults end in a state from which the person can go on"
    resolutions = [["ordinary", "To receive the accounts"], ["ordinary", "To thank the chair"]]

    def before(self, desk):
        call(desk, "FAULTS2", ["ordinary", "To go on"])
        desk.ask("M1", self.meeting, "appoint", {"proxy": "P", "from": 1, "to": 60, "instructions": ["free", "free"]})
        desk.ask("M2", self.meeting, "appoint", {"proxy": "P", "from": 1, "to": 40, "instructions": ["free", "free"]})

    def play(self, desk, one, other):
        opened(desk, self.meeting)
        start(desk, self.meeting, 1)
        tell("`mine` fails once at entry")
        desk.relay.fail = "/mine"
        one.enter("M1", self.meeting)
        one.said("A part of this page could not be had yet.")
        one.reads("#you", "is asked for, and shown once it comes")
        one.reads("#resolution-1 .stage", "The voting is open")
        check(desk.relay.fail is None, "a read was failed")
        one.wait("#vote-1-kept", 10)
        one.said("The desk answers again.")

        tell("one ballot that is sent leaves the others as they are")
        one.enter("P", self.meeting)
        one.click("#vote-1-proxy-M2-way-split")
        one.type("#vote-1-proxy-M2-for-shares", "7")
        one.click("#vote-1-proxy-M1-way-for")
        one.click("#vote-1-proxy-M1-send")
        one.said("for on 60 shares")
        one.reads("#vote-1-proxy-M1-told", "for on 60 shares")
        check(one.value("#vote-1-proxy-M2-for-shares") == "7", "what was typed stands")
        check(one.find("#vote-1-proxy-M2-way-split").is_selected(), "what was chosen stands")
        one.click("#vote-1-proxy-M2-send")
        one.said("for on 7 shares")

        tell("a double click on Enter makes one party")
        one.load()
        one.type("#key", desk.keys["M2"])
        one.type("#meeting", self.meeting)
        one.driver.execute_script("""const send = document.querySelector("#enter button[type=submit]"); send.click(); send.click();""")
        one.wait("#view section")
        asked = """return performance.getEntriesByType("resource").filter(({ name }) => name.endsWith("/mine")).length"""
        one.until(lambda: one.driver.execute_script(asked) > 0, "the own things are asked")
        time.sleep(1)
        check(one.driver.execute_script(asked) == 1, "they are asked once")

        tell("Keep keeps the name, and another meeting's link is followed")
        one.load()
        one.click("#keep")
        one.type("#key", desk.keys["M2"])
        one.type("#meeting", self.meeting)
        one.click("#enter button[type=submit]")
        one.type("#self", "M2")
        one.driver.refresh()
        one.wait("#vote-1-all")
        check(one.wait("#self").get_property("value") == "M2", "the name is kept")
        one.reads("#who", "You are here as M2.")
        for way in (lambda: one.driver.execute_script("location.hash = '#FAULTS2'"), lambda: (one.driver.get("about:blank"), one.driver.get(one.address + "#FAULTS2"))):
            way()
            one.reads("h1", "General meeting FAULTS2")
            one.reads("#notice", "called FAULTS2")
        one.driver.execute_script("location.hash = '#NONE'")
        one.said("No meeting of this name has been called")
        one.type("#meeting", self.meeting)
        one.click("#enter button[type=submit]")
        one.wait("#vote-1-all")

        tell("a key that is replaced while a reply is unknown")
        other.enter("OFFICE", self.meeting)
        other.find("#second-file").send_keys(desk.path("LOOK.key"))
        other.reads("#second", "asks for the notice with it")
        one.click("#vote-1-all-way-for")
        desk.stop()
        one.click("#vote-1-all-send")
        one.said("The desk does not answer")
        other.click("#close-1")
        other.sure("can not be opened again")
        other.said("The notice can not be had")
        desk.give_keys(["M2", "LOOK"])
        desk.serve(0)
        one.said("The desk took this key when you entered, and refuses it now.", 20)
        one.said("No reply had come to your last request")
        one.shot("20-key-replaced")
        one.find("#key-file").send_keys(desk.path("M2.key"))
        one.click("#enter button[type=submit]")
        one.reads("#vote-1-all-told", "Recorded: nothing yet")
        one.click("#vote-1-all-way-for")
        one.click("#vote-1-all-send")
        one.said("for on 40 shares")
        other.said("The second key was replaced since.", 20)
        other.click("#reply button")
        other.said("The voting is closed on resolution 1.")
        other.find("#second-file").send_keys(desk.path("LOOK.key"))
        other.reads("#resolution-1 .stage", "The voting is closed")
        other.click("#declare-1")
        other.sure("can not be changed")
        other.said("The result is declared")

        tell("the secretary's own key is replaced")
        desk.stop()
        desk.give_keys(["OFFICE"])
        desk.serve(0)
        other.type("#party", "P")
        other.click("#presence-send")
        other.said("refuses it now")
        other.find("#key-file").send_keys(desk.path("OFFICE.key"))
        other.click("#enter button[type=submit]")
        other.wait("#presence")
        one.leave()


class ManyProxies:
    """A chair with the proxies of 1,100 members, of whom the n-th has n shares, and the last fifth instructs on the second resolution."""

    meeting, title = "CHAIR", "a chair with many proxies"
    resolutions = [["ordinary", "To receive the accounts"], ["special", "To adopt new articles"]]
    register = REGISTER + "".join(f"{party},individual,Member {party[1:]},{party[1:]},100\n" for party in MANY)

    def before(self, desk):
        for party in MANY:
            desk.ask(party, self.meeting, "appoint", {"proxy": "M1", "from": 1, "to": 10**12, "instructions": ["free", "for" if int(party[1:]) > COUNT - BOUND else "free"]})

    def play(self, desk, one, other):
        opened(desk, self.meeting)
        start(desk, self.meeting, 1, 2)
        one.load()
        one.driver.execute_cdp_cmd("Performance.enable", {"timeDomain": "threadTicks"})
        spent = lambda: sum(each["value"] for each in one.driver.execute_cdp_cmd("Performance.getMetrics", {})["metrics"] if each["name"] == "TaskDuration")
        one.find("#key-file").send_keys(desk.path("M1.key"))
        one.type("#meeting", self.meeting)
        before, begun = spent(), time.time()
        one.click("#enter button[type=submit]")
        one.wait("#blocks-2 li", 180)
        first, took = spent(), time.time() - begun
        tell(f"{COUNT} members: the first view after {took:.1f} seconds, of which the browser worked {first - before:.2f}")
        check(first - before < 1, "the first view takes the browser less than a second")
        one.click("#refresh")
        one.said("This is what the desk had on")
        tell(f"reading again: the browser worked {spent() - first:.2f} seconds")
        one.reads("#blocks-1 .help", f"20 shown, {COUNT + 1:,} found, of {COUNT + 1:,}.")
        one.shots("21-many")

        tell("the filter, and one holding alone")
        some = COUNT - 23
        one.type("#list-1-sought", f"of x{some},")
        one.reads("#blocks-1 .help", f"1 shown, 1 found, of {COUNT + 1:,}.")
        one.click("#blocks-1 li button")
        one.click(f"#vote-1-proxy-X{some}-way-against")
        one.click(f"#vote-1-proxy-X{some}-send")
        one.said(f"against on {some:,} shares")
        one.reads("#blocks-1 li", f"against on {some:,} shares")
        check(one.value("#list-1-sought") == f"of x{some},", "the filter stands")

        tell("all of them, stopped, with a reply that is lost")
        one.click("#all-1-send")
        one.said("Choose how you vote.")
        one.click("#all-1-way-for")
        one.click("#all-1-send")
        most = min(COUNT + 1, MOST_VOTES - 1)
        left = COUNT + 1 - most
        one.reads("#sure", f"{most:,} votes on")
        if left > 0:
            one.reads("#sure", f"You have sent 1. So {left} holdings with the fewest shares would be left out: X1, X2, X3,")
            check(f"X{left}." in one.find("#sure").text, "the last of those left out")
        one.shots("22-many-sure", 900)
        one.click("#sure-no")
        check(not one.all("#sure[open]"), "No goes back")
        one.click("#all-1-send")
        one.click("#sure-yes")
        bar = one.wait("#reply progress")
        one.until(lambda: bar.get_property("value") >= 10, "votes are sent", 120)
        desk.relay.lose = 1
        one.until(lambda: desk.relay.lose == 0, "a reply is lost")
        sent = bar.get_property("value")
        one.until(lambda: bar.get_property("value") > sent + 2, "it goes on", 120)
        one.shot("23-many-sending-390", 390, 900)
        one.click("#stop")
        one.said("You stopped it: vote again to send the rest.")
        sent = int(one.find("#reply").text.split(" of ")[0].replace(",", ""))
        check(10 <= sent < most, f"{sent} votes were sent")
        one.click("#all-1-send")
        one.reads("#sure", f"{most - sent:,} votes on")
        one.reads("#sure", f"{sent} holdings more: this is recorded so already.")
        begun = time.time()
        one.click("#sure-yes")
        one.said("Your vote on resolution 1 is recorded: for on", 1800)
        tell(f"{most - sent} votes in {time.time() - begun:.0f} seconds")
        one.reads("#blocks-1 li", f"X{some}, as proxy. Recorded: for on {some:,} shares")
        one.click("#all-2-way-withheld")
        one.click("#all-2-send")
        one.reads("#sure", f"{COUNT - BOUND + 1:,} votes on")
        check("The desk takes" not in one.find("#sure").text, "the limit is not passed")
        one.click("#sure-no")
        one.click("#instructed-2")
        one.said("Your vote as instructed on resolution 2 is recorded.")
        finish(desk, self.meeting, 1, 2)
        polls = [each["poll"]["result"] for each in desk.ask("M1", self.meeting, "notice")["resolutions"]]
        check(polls[0]["for"] == sum(range(left + 1, COUNT + 1)) + 100, f"the count has all that were sent: {polls[0]}")
        check(polls[1]["for"] == sum(range(COUNT - BOUND + 1, COUNT + 1)), f"the count of those instructed: {polls[1]}")


class Names:
    """Whose key it is, whom one names, and what the secretary says of the company. The meeting is three weeks ahead."""

    meeting, title = "NAMES", "who one is, and whom one names"
    resolutions = [["ordinary", "To receive the accounts"], ["special", "To adopt new articles"]]
    appointed = APPOINTED + timedelta(days=28)
    settings = {"company": "Carr & Sons <b>Limited</b>", "chair": "Q", "place": "The Guildhall, 1 High Street, Leeds", "contact": "The secretary, 0113 496 0000",
                "texts": "https://carr-and-sons.example/meetings/2026/general-meeting/full-texts-of-the-resolutions-as-proposed.pdf"}

    def play(self, desk, one, other):
        one.load()
        check(one.find("#contact").text == "", "without settings nothing is shown")
        desk.write("page/settings.json", json.dumps(self.settings))
        one.load()
        one.reads("#contact", "Questions: The secretary, 0113 496 0000")
        one.shots("24-enter-settings")
        tell("a key is typed with spaces, and shown")
        key = desk.keys["M1"]
        one.type("#key", " ".join(key[place:place + 4] for place in range(0, len(key), 4)))
        check(one.find("#key").get_property("type") == "password", "the key is hidden at first")
        one.click("#show-key")
        check(one.find("#key").get_property("type") == "text", "the key is shown")
        one.type("#meeting", self.meeting)
        one.click("#enter button[type=submit]")
        one.reads("#who", "You are here as a member, proxy or representative.")
        tell("a file whose name is another's")
        one.load()
        desk.write("M2.txt", f"Desk-Key: {key}\n")
        one.find("#key-file").send_keys(desk.path("M2.txt"))
        one.type("#meeting", self.meeting)
        one.click("#enter button[type=submit]")
        one.reads("#who", "You are here as a member, proxy or representative.")
        check(one.wait("#self").get_property("value") == "", "no name is guessed")
        one.enter("M1", self.meeting)
        one.reads("#who", "You are here as M1.")
        check(one.wait("#self").get_property("value") == "M1", "the name is that of the second line")

        tell("the settings are shown, as plain text")
        for words in self.settings.values():
            one.reads("#notice", words)
        one.reads("#company", "<b>Limited</b>")
        check(not one.all("#notice b, #notice a, #company b"), "nothing of them is read as HTML")

        tell("the chair is offered first, and any other name said back")
        check(one.find("#whom-chair").is_selected() and not one.find("#proxy").is_displayed(), "the chair is chosen at first")
        one.click("#whom-other")
        one.type("#proxy", "pp")
        one.choose("#instruction-2", "withheld")
        one.click("#appoint-send")
        one.reads("#sure", "PP is a name that this desk does not check. Somebody must hold its key")
        one.reads("#sure", "It would act on shares 1 to 100. Instructions: 1: as the proxy thinks fit; 2: withhold the vote (no vote in law).")
        one.shots("25-sure", 900)
        one.click("#sure-no")
        check(desk.ask("M1", self.meeting, "mine")["given"] == [], "nothing is sent on No")
        check(one.value("#proxy") == "pp", "what was typed stands")
        one.click("#whom-chair")
        one.click("#appoint-send")
        one.sure("Q is the chair of the meeting, as the secretary says on this page.")
        one.said("Appointment 1 of Q is made. It counts for the meeting. That was on")
        one.reads("#given", "Number 1: Q, over shares 1 to 100, received")
        one.look_over("names")
        one.shots("26-names")
        one.enter("Q", self.meeting)
        one.wait("#proxy")
        check(not one.all("#whom-chair"), "the chair is not offered itself")
        os.remove(desk.path("page/settings.json"))
        one.enter("M1", self.meeting)
        check("Place" not in one.find("#notice").text, "without settings nothing is shown")


class Steps:
    """The secretary: many names, and steps that can not be taken back."""

    meeting, title = "STEPS", "the secretary's steps"
    resolutions = [["ordinary", "To receive the accounts"], ["ordinary", "To thank the chair"]]

    def play(self, desk, one, other):
        tell("a call whose day of notice lies ahead")
        one.enter("OFFICE", "AHEAD")
        one.find("#second-file").send_keys(desk.path("LOOK.key"))
        one.gone("#blind")
        one.reads("#call", "The day on which it is taken as received (section 1147)")
        one.reads("#call label[for=call-appointed]", "Time of the meeting (London time)")
        one.set("#call-given", str((NOW + timedelta(days=3)).date()))
        later = (NOW + timedelta(days=31)).replace(hour=10, minute=0, second=0)
        later += timedelta(days=-later.weekday() % 7)
        one.set("#call-appointed", later.isoformat())
        one.set("#call-record", (later - timedelta(days=2)).isoformat())
        one.type("#call-text-1", "To receive the accounts")
        one.click("#call-check")
        one.reads("#call-sure", "A call can not be taken back")
        check(not one.all("#call-sure .warnings"), f"that the day of notice lies ahead is no warning: {one.find('#call-sure').text}")
        one.reads("#call-sure", "Notice is taken as received on")
        one.shots("27-call-ahead")
        one.click("#call-send")
        one.said("The meeting AHEAD is called.")

        tell("20,000 names, of which those marked stand first")
        one.enter("OFFICE", self.meeting)
        one.find("#second-file").send_keys(desk.path("LOOK.key"))
        one.gone("#blind")
        desk.write("many.csv", "member,kind,name,shares,paid\nM1,individual,Ada Lovelace,100,100\nM2,individual,Ben Nevis,40,100\n"
                   + "".join(f'Y{number},individual,"Member {number}, of Leeds",1,100\n' for number in range(1, 19999)))
        begun = time.time()
        one.find("#names").send_keys(desk.path("many.csv"))
        one.said("20,000 names are read.")
        tell(f"20,000 names were shown after {time.time() - begun:.1f} seconds")
        check(len(one.all("#names-read button")) == 21, "twenty names, and one button for all")
        one.reads("#names-read .help", "20 shown, 20,000 found, of 20,000.")
        for sought, party in [("nevis", "M2"), ("ada l", "M1")]:
            one.type("#present-sought", sought)
            one.reads("#names-read .help", "1 shown, 1 found, of 20,000.")
            one.click(f"#present-{party}")
            one.said(f"{party} is marked as present.")
            check(one.value("#present-sought") == sought, "what was sought stands")
        one.find("#present-sought").clear()
        one.type("#present-sought", "of leeds")
        one.reads("#names-read .help", "20 shown, 19,998 found")
        one.driver.execute_script("arguments[0].value = ''; arguments[0].dispatchEvent(new Event('input'))", one.find("#present-sought"))
        one.reads("#names-read li:nth-child(1)", "M1 is marked as present. Ada Lovelace")
        one.reads("#names-read li:nth-child(2)", "M2 is marked as present. Ben Nevis")
        one.reads("#names-read li:nth-child(3)", "Y1 is present")
        one.shots("28-presences")
        one.look_over("presences")
        one.click("#open-send")
        one.said("The meeting is opened.")

        tell("steps that ask once")
        far = (NOW + timedelta(days=12)).replace(hour=14, minute=30, second=0)
        one.click("#when-1-later")
        one.set("#take-1", (NOW - timedelta(days=1)).isoformat())
        one.click("#order-1-send")
        one.said("Give the time of the poll, which is still to come.")
        one.set("#take-1", far.isoformat())
        one.click("#order-1-send")
        one.reads("#sure", f"{far.strftime('%A')} {far.day} {far.strftime('%B %Y')} at 14:30 (London time)")
        one.reads("#sure", "An order can not be taken back")
        one.shots("29-sure-order", 900)
        one.click("#sure-no")
        one.reads("#resolution-1 .stage", "No poll is ordered.")
        check(one.value("#take-1").startswith(far.isoformat()[:16]), "what was typed stands")
        one.click("#order-1-send")
        one.click("#sure-yes")
        one.said("A poll on resolution 1 is ordered.")
        one.click("#order-2-send")
        one.said("A poll on resolution 2 is ordered.")
        one.click("#start-2")
        one.said("The voting is open on resolution 2.")
        for step, words in [("close", "The voting can not be opened again"), ("declare", "It can not be changed or taken back")]:
            before = one.wait("#resolution-2 .stage").text
            one.click(f"#{step}-2")
            one.reads("#sure", words)
            one.find("body").send_keys(Keys.ESCAPE)
            one.until(lambda: not one.all("#sure[open]"), "Escape goes back")
            check(one.find("#resolution-2 .stage").text == before, "nothing is done by Escape")
            one.click(f"#{step}-2")
            one.click("#sure-yes")
            one.until(lambda: one.find("#resolution-2 .stage").text != before, f"{step} is done")
        one.wait("#resolution-2 .result")
        one.set("#adjourn-appointed", later.isoformat())
        one.click("#adjourn-send")
        one.reads("#sure", f"The next session is on Monday {later.day} {later.strftime('%B %Y')} at 10:00 (London time)")
        one.sure("An adjournment can not be taken back")
        one.said("The meeting is adjourned to")


class Printed:
    """Eight resolutions of two sessions, on paper."""

    meeting, title = "PRINT", "results and minutes on paper"
    resolutions = [["ordinary", "To receive the accounts and the reports of the directors and the auditor for the year that ended on 31 March 2026, and to declare a final dividend of 4.2 pence a share, payable on 30 June"],
                   ["special", "To adopt new articles"], *[["ordinary", f"To elect director {number} for a term of three years"] for number in range(3, 9)]]

    def play(self, desk, one, other):
        def vote(numbers):
            for number in numbers:
                cast(desk, "M1", self.meeting, number, "for", 99)
                cast(desk, "M2", self.meeting, number, "withheld" if number == 8 else "against", 40)
            finish(desk, self.meeting, *numbers)

        desk.write("page/settings.json", json.dumps(Names.settings))
        opened(desk, self.meeting)
        start(desk, self.meeting, *range(1, 7))
        vote(range(1, 7))
        then = datetime.now(ZONE).replace(microsecond=0, tzinfo=None) + timedelta(seconds=2)
        desk.ask("OFFICE", self.meeting, "adjourn", {"appointed": then.isoformat()})
        time.sleep(2.5)
        opened(desk, self.meeting)
        start(desk, self.meeting, 7, 8)
        vote([7, 8])
        one.enter("M2", self.meeting)
        one.click("#sheet")
        one.wait("#large[open] .paper")
        text = one.find("#large").text
        day = f"{NOW.strftime('%A')} {NOW.day} {NOW.strftime('%B %Y')}"
        for part in ["Carr & Sons <b>Limited</b>", f"Results of the general meeting {self.meeting}", "Session 1", "Session 2", "Special resolution. Lost on a poll in session 1, ordered by the chair, taken on " + day,
                     "Ordinary resolution. Carried on a poll in session 2", "For 99 71.22% 52.10%", "Against 40 28.77% 21.05%", "Withheld (no vote in law) 40 21.05%", "For 99 100.00% 52.10%", "Not voted 51 26.84%", "All shares 190 100.00%"]:
            check(part in text, f"the sheet has {part!r}: {text}")
        numbers = [int(heading.text.split(".")[0]) for heading in one.all("#large section h3")]
        check(numbers == list(range(1, 9)), f"in the order of the agenda: {numbers}")
        one.shots("30-sheet")
        pages = one.printed("30-sheet")
        check(pages == 2, f"eight resolutions on two pages, not {pages}")
        one.click("#large-back")
        one.until(lambda: not one.all("#large[open]"), "back to the page")

        other.enter("OFFICE", self.meeting)
        other.find("#second-file").send_keys(desk.path("LOOK.key"))
        other.click("#minutes")
        other.wait("#large[open] .paper")
        text = other.find("#large").text
        for part in ["Draft: minutes of the general meeting", "Place The Guildhall", "In the chair", "20 clear days before the meeting (sections 307 and 360)", "(section 318)", "Section 355", "Section 356", "Section 248", "(section 332)",
                     "Signed, as chair of the meeting", "Carried on a poll in session 2"]:
            check(part in " ".join(text.split()), f"the draft has {part!r}: {text}")
        other.shots("31-minutes")
        pages = other.printed("31-minutes")
        check(2 <= pages <= 4, f"the draft of minutes has {pages} pages")
        os.remove(desk.path("page/settings.json"))


class ReadsWell:
    """Long numbers, words in another direction, a phone, an old browser, and a note of one's own."""

    meeting, title = "LONG", "what is shown is read rightly"
    name = "\u05d0\u05d3\u05d4 (Ada) <i>"
    resolutions = [["ordinary", "\u05dc\u05e7\u05d1\u05dc \u05d0\u05ea 2026 (accounts)"], ["ordinary", "W" * 190], ["ordinary", "To thank the chair"]]
    register = f"member,kind,name,shares,paid\nM1,individual,{name},999999999860,100\nM2,individual,Ben Nevis,40,100\nC1,corporation,Carr Holdings Limited,100,100\n"

    def play(self, desk, one, other):
        opened(desk, self.meeting)
        start(desk, self.meeting, 1, 2)
        tell("on a phone what is to be done stands at the top")
        desk.ask("C1", self.meeting, "authorise", {"person": "R"})
        phone = {"width": 390, "height": 844, "deviceScaleFactor": 1, "mobile": True}
        other.enter("R", self.meeting)
        other.driver.execute_cdp_cmd("Emulation.setDeviceMetricsOverride", phone)
        other.wait("#attend")
        place = lambda css: other.driver.execute_script("return document.querySelector(arguments[0]).getBoundingClientRect().bottom + scrollY", css)
        check(place("#attend") < 400, f"I am present ends at {place('#attend')}")
        check(place("#resolution-1 .stage") < 844, f"the open poll is seen at {place('#resolution-1 .stage')}")
        check(place("#vote-1-rep-C1-send") < place("#notice"), "the ballot comes before the notice")
        other.shot("32-phone-390", 390, 844)
        other.click("#attend")
        other.said("You are marked as present.")
        other.gone("#here")
        other.driver.execute_cdp_cmd("Emulation.clearDeviceMetricsOverride", {})

        tell("the zone, words in another direction, and withheld")
        one.enter("M1", self.meeting)
        one.reads("#notice", "(London time)")
        for css, words in [("#you bdi", self.name), ("#resolution-1-title bdi", self.resolutions[0][1]), ("#given label[for=instruction-1] bdi", self.resolutions[0][1])]:
            check(one.wait(css).text == words, f"{css} has {one.find(css).text!r}")
        check(not one.all("#you i"), "a name is no HTML")
        one.reads("#vote-1-own", "Withhold the vote (no vote in law): all 999,999,999,860")
        one.click("#vote-1-own-way-split")
        one.type("#vote-1-own-for-shares", "999,999,999,858")
        one.type("#vote-1-own-withheld-shares", "2")
        one.shots("33-long-ballot")
        one.click("#vote-1-own-send")
        one.said("Your vote on resolution 1 is recorded: for on 999,999,999,858 shares, withheld on 2 shares. Your own 999,999,999,860 shares. That was on")

        tell("a note of one's own")
        one.type("#proxy", "P")
        one.click("#appoint-send")
        one.sure("P is a name")
        one.said("Appointment 1 of P is made.")
        one.click("#own-note")
        day = f"{NOW.strftime('%A')} {NOW.day} {NOW.strftime('%B %Y')} at "
        note = " ".join(one.wait("#large[open] .paper").text.split())
        for part in [f"Own note of M1: general meeting {self.meeting}", f"{day}", "Your vote on resolution 1 is recorded: for on 999,999,999,858 shares", f"Number 1: P, over shares 1 to 999,999,999,860, received on {day}",
                     "Your own 999,999,999,860 shares: for on 999,999,999,858 shares (1 to 999,999,999,858); withheld on 2 shares"]:
            check(part in note, f"the note has {part!r}: {note}")
        one.shots("34-note")
        check(one.printed("34-note") == 1, "the note is one page")
        one.click("#large-back")

        tell("long numbers do not break")
        finish(desk, self.meeting, 1, 2)
        one.wait("#resolution-1 .result")
        one.shots("35-long-result")
        one.click("#room-1")
        one.wait("#large[open] .outcome")
        one.shots("36-long-room", 900)
        one.find("body").send_keys(Keys.ESCAPE)
        one.click("#sheet")
        one.shots("37-long-sheet")
        one.look_over("long numbers")

        tell("a browser that does not run the page")
        one.driver.execute_cdp_cmd("Network.enable", {})
        one.driver.execute_cdp_cmd("Network.setBlockedURLs", {"urls": ["*/words.js"]})
        one.driver.get("about:blank")
        one.driver.get(one.address)
        one.reads("#old", "This browser is too old for this page, or a part of the page did not come.", 10)
        one.shots("38-old")
        one.driver.execute_cdp_cmd("Network.setBlockedURLs", {"urls": []})
        one.driver.get_log("browser")
        one.load()
        check(not one.all("#old"), "the sentence is gone where the page runs")


CHAPTERS = [GoesOnAsking(), SeesOthers(), EndsWell(), ManyProxies(), Names(), Steps(), Printed(), ReadsWell()]


def play(chapters):
    def day(desk, one, other):
        desk.serve(BEHIND)
        for chapter in chapters:
            call(desk, chapter.meeting, *chapter.resolutions, appointed=getattr(chapter, "appointed", APPOINTED))
            if hasattr(chapter, "before"):
                chapter.before(desk)
        desk.stop()
        for chapter in chapters:
            desk.write("register.csv", getattr(chapter, "register", REGISTER))
            desk.run("register", "gm.desk", chapter.meeting, RECORD, "register.csv")
        desk.front(0)
        desk.serve(0)
        for chapter in chapters:
            tell(f"== {chapter.title}")
            chapter.play(desk, one, other)
    return day


if __name__ == "__main__":
    chosen = [chapter for chapter in CHAPTERS if len(sys.argv) < 3 or type(chapter).__name__ in sys.argv[2:]]
    hold(sys.argv[1], PARTIES + MANY, ["one", "other"], play(chosen))
