#!/usr/bin/python3
"""page/test/meeting.py PROGRAM: holds the officer's day by clicking, with three browsers.

The clocks of desk and front are six days behind until the register is loaded. From then on they go by the machine's clock.
"""
import glob
import http.client
import json
import os
import socket
import sys
import time
from datetime import datetime, timedelta

from selenium import webdriver
from selenium.webdriver.common.by import By
from selenium.webdriver.common.keys import Keys

from stage import BEHIND, ZONE, check, hold, tell

LEAD = int(os.environ.get("LEAD", "150"))
PARTIES = ["OFFICE", "LOOK", "M1", "M2", "C1", "P", "R"]


def slow_peers(port):
    """Two peers that send a part of a request each, and wait."""
    heads = [b"POST /m/G1/attend HTTP/1.1\r\nHost: desk\r\nDesk-", b"POST /m/G1/cast HTTP/1.1\r\nHost: desk\r\nContent-Length: 100\r\n\r\n{\"resolution\""]
    peers = []
    for head in heads:
        peer = socket.create_connection(("127.0.0.1", port))
        peer.sendall(head)
        peers.append(peer)
    return peers


def front_takes(desk):
    """What the front hands on and what it keeps from the desk."""

    def ask(method, target, body=None, more=None, chunked=False):
        front = http.client.HTTPConnection("127.0.0.1", desk.at, timeout=30)
        front.request(method, target, body, {"Desk-Key": desk.keys["M1"], **(more or {})}, encode_chunked=chunked)
        reply = front.getresponse()
        return reply.status, reply.read()

    browser = dict.fromkeys(["Accept", "Cookie", "Origin", "Referer", "User-Agent"], "y" * 1500)
    check(ask("GET", "/m/G1/mine", more=browser)[0] == 200, "what browsers add is not handed on")
    many = {f"X-{number}": "y" for number in range(40)}
    check(ask("GET", "/m/G1/mine", more=many)[0] == 413, "more than 32 other headers are refused")
    check(ask("GET", "/m/G1/mine", more={"desk-key": desk.keys["M1"]})[0] == 401, "a key that comes twice is refused")
    status, reply = ask("POST", "/m/G1/end", iter([b'{"number"', b":9}"]), {"Transfer-Encoding": "chunked"}, True)
    check((status, json.loads(reply)["code"]) == (409, 16), "a body in chunks is handed on whole")
    check(ask("POST", "/m/G1/end", b" " * 65537)[0] == 413, "a body of 65,537 bytes is not handed on")
    status, reply = ask("POST", "/m/G1/end", b" " * 65536)
    check((status, json.loads(reply)["code"]) == (400, 5), "a body of 65,536 bytes is")
    for target in ["/README.md", "/open", "/package.json", "/test/run", "/test/meeting.py"]:
        check(ask("GET", target)[0] == 404, f"{target} is not served")


def cut_off(peer):
    peer.settimeout(30)
    try:
        while peer.recv(4096):
            pass
        return True
    except ConnectionResetError:
        return True
    except socket.timeout:
        return False


def day(desk, secretary, member, proxy):
    begun = datetime.now(ZONE).replace(microsecond=0, tzinfo=None)
    appointed = (begun + timedelta(seconds=LEAD)).replace(microsecond=0)
    given, record = (appointed - timedelta(days=21)).date(), begun - timedelta(days=1)

    tell("with the desk stopped, the page says so")
    member.load()
    member.look_over("enter")
    member.shots("01-enter")
    member.type("#key", desk.keys["M1"])
    member.type("#meeting", "G1")
    member.click("#enter button[type=submit]")
    member.said("The desk does not answer")
    desk.serve(BEHIND)

    tell("a wrong key, and a meeting that is not called")
    member.load()
    member.type("#key", "x" * 20)
    member.type("#meeting", "G1")
    member.find("#meeting").send_keys(Keys.ENTER)
    member.said("does not know this key")
    member.type("#key", desk.keys["M1"])
    member.find("#meeting").send_keys(Keys.ENTER)
    member.said("No meeting of this name")
    check(desk.keys["M1"] not in member.driver.current_url, "no key in the address")

    tell("the secretary calls the meeting")
    secretary.enter("OFFICE")
    secretary.reads("#who", "secretary")
    check(secretary.find("#refresh").is_displayed(), "Refresh is there")
    secretary.shots("02-secretary-without-second-key")
    secretary.find("#second-file").send_keys(desk.path("OFFICE.key"))
    secretary.said("gives no notice for the second key")
    secretary.find("#second-file").send_keys(desk.path("LOOK.key"))
    secretary.reads("#second", "asks for the notice with it")
    secretary.gone("#blind")
    secretary.set("#call-given", str(given))
    secretary.set("#call-appointed", appointed.isoformat())
    secretary.set("#call-record", (appointed + timedelta(days=1)).isoformat())
    secretary.type("#call-text-1", "To receive the accounts")
    secretary.click("#call-add")
    secretary.type("#call-text-2", "To adopt new articles")
    secretary.choose("#call-kind-2", "special")
    secretary.click("#call-add")
    secretary.click("#call-check")
    secretary.said("The words of resolution 3 have 1 to 200 characters.")
    secretary.type("#call-text-3", "To thank the chair")
    secretary.click("#call-check")
    secretary.reads("#call-sure", "The record moment is after the time of the meeting")
    secretary.look_over("call with a warning")
    secretary.shots("03-call-warning")
    secretary.set("#call-given", str(appointed.date() - timedelta(days=14)))
    secretary.click("#call-check")
    secretary.said("There are 13 clear days")
    secretary.set("#call-given", str(given))
    secretary.set("#call-record", record.isoformat())
    secretary.click("#call-check")
    secretary.reads("#call-sure", "20 clear days")
    check("record moment is after" not in secretary.find("#call-sure").text, "no warning about the record moment")
    secretary.shots("04-call")
    secretary.click("#call-send")
    secretary.said("The meeting G1 is called.")
    secretary.reads("#notice", "It is not loaded yet")

    tell("members appoint proxies, end one, and authorise")
    member.enter("M1")
    member.reads("#notice", "General meeting of a private company")
    member.reads("#notice .left", "That is in")
    member.type("#proxy", "M1")
    member.click("#appoint-send")
    member.sure("M1 is a name that this desk does not check.")
    member.said("You named yourself as proxy")
    member.click("#over-range")
    member.type("#proxy", "P")
    member.type("#from", "1")
    member.type("#to", "60")
    member.choose("#instruction-1", "for")
    member.shots("05-member-before")
    member.click("#appoint-send")
    member.sure("It would act on shares 1 to 60. Instructions: 1: for; 2: as the proxy thinks fit;")
    member.said("Appointment 1 of P is made. It counts for the meeting.")
    member.look_over("member before the meeting")
    member.enter("C1", file=False)
    member.type("#person", "R")
    member.click("#authorise-send")
    member.sure("R is a name that this desk does not check.")
    member.said("R is authorised.")
    member.enter("M2")
    member.type("#proxy", "P")
    member.click("#appoint-send")
    member.sure("It would act on all your shares.")
    member.said("Appointment 1 of P is made.")
    member.reads("#given", "over all your shares")
    member.click("#end-1")
    member.said("Appointment 1 is ended.")
    member.reads("#given", "Ended")

    tell("the register is loaded while the desk is stopped")
    desk.stop()
    member.click("#attend")
    member.said("The page goes on asking what stands")
    member.shots("06-unknown")
    desk.run("register", "gm.desk", "G1", record.isoformat(), "register.csv")
    desk.front(0)
    desk.serve(0)
    member.said("it was not done. You can send it again.")

    tell("before the appointed time: who is present")
    peers = slow_peers(desk.at)
    secretary.enter("OFFICE")
    secretary.find("#second-file").send_keys(desk.path("LOOK.key"))
    secretary.reads("#notice", "It is loaded.")
    if datetime.now(ZONE).replace(tzinfo=None) < appointed - timedelta(seconds=2):
        secretary.reads("#open", "It can be opened from")
        check(not secretary.all("#open-send"), "no opening is offered before its time")
    else:
        tell("the appointed time is past already: that the opening is not offered before it was not looked at")
    member.enter("M2")
    member.reads("#you", "Ben Nevis, an individual, with 40 shares")
    member.click("#attend")
    member.said("You are marked as present.")
    proxy.enter("P")
    proxy.reads("#received", "For the meeting it governs shares 1 to 60")
    proxy.click("#attend")
    proxy.said("You are marked as present.")
    secretary.find("#names").send_keys(desk.path("register.csv"))
    secretary.wait("#present-M1")
    secretary.type("#party", "R")
    secretary.click("#presence-send")
    secretary.said("R is marked as present.")
    secretary.shots("07-presence")
    secretary.wait("#open-send", seconds=LEAD + 60)
    secretary.click("#open-send")
    secretary.said("The meeting is opened.")

    tell("a poll on a demand, and one by the chair")
    # The member's page shows by itself that the meeting is opened.
    member.until(lambda: "Not yet" not in member.find("#notice").text, "sees that the meeting is opened")
    member.click("#demand-1")
    member.said("Your demand of a poll on resolution 1 is noted.")
    secretary.click("#by-1-demand")
    secretary.click("#order-1-send")
    secretary.said("A poll on resolution 1 is ordered.")
    secretary.shots("08-order")
    secretary.click("#order-2-send")
    secretary.said("A poll on resolution 2 is ordered.")
    for number in "12":
        secretary.click(f"#start-{number}")
        secretary.said(f"The voting is open on resolution {number}.")

    tell("votes")
    proxy.wait("#instructed-1", 60)
    proxy.wait("#vote-2-proxy-M1")
    proxy.look_over("proxy during the poll")
    proxy.shots("09-proxy-poll")
    desk.relay.lose = 1
    proxy.click("#instructed-1")
    proxy.said("No reply came, but it was done: the desk has it.")
    check(desk.relay.lose == 0, "a reply was lost")
    proxy.reads("#resolution-1 .recorded", "for on 60 shares (1 to 60)")
    proxy.click("#vote-2-proxy-M1-way-for")
    proxy.click("#vote-2-proxy-M1-send")
    proxy.said("Your vote on resolution 2 is recorded: for on 60 shares.")
    member.wait("#vote-1-own", 60)
    check(member.value("#self") == "M2", "the short name is that of the key file")
    member.type("#self", "M1")
    member.click("#vote-1-own-way-against")
    member.click("#vote-1-own-send")
    member.said("You may not vote these shares in this way")
    member.type("#self", "M2")
    member.click("#vote-1-own-way-split")
    member.type("#vote-1-own-for-shares", "41")
    member.click("#vote-1-own-send")
    member.said("Give between 1 and 40 shares in all. You gave 41.")
    member.type("#vote-1-own-for-shares", "15")
    member.type("#vote-1-own-against-shares", "25")
    member.click("#vote-1-own-send")
    member.said("for on 15 shares, against on 25 shares")
    member.reads("#resolution-1 .recorded", "for on 15 shares (1 to 15); against on 25 shares (16 to 40)")
    member.shots("10-member-poll")
    member.look_over("member during the poll")
    member.click("#vote-1-own-way-against")
    member.click("#vote-1-own-send")
    member.said("against on 40 shares")
    member.click("#vote-2-own-way-withheld")
    member.click("#vote-2-own-send")
    member.said("withheld on 40 shares")
    member.enter("M1")
    member.reads("#resolution-1", "Your own 40 shares that no proxy has")
    member.click("#vote-1-kept-way-against")
    member.click("#vote-1-kept-send")
    member.said("against on 40 shares")
    member.reads("#resolution-1 .recorded", "against on 40 shares (61 to 100)")
    member.shots("11-member-with-proxy")
    proxy.enter("R")
    proxy.reads("#persons", "C1 has authorised you, for 50 shares.")
    proxy.click("#vote-1-rep-C1-way-for")
    proxy.click("#vote-1-rep-C1-send")
    proxy.said("for on 50 shares")
    # By the keyboard alone: the vote on the second resolution.
    proxy.driver.execute_script("document.querySelector('#vote-2-rep-C1-way-for').focus()")
    keys = webdriver.ActionChains(proxy.driver)
    keys.send_keys(Keys.SPACE, Keys.ARROW_DOWN, Keys.TAB, Keys.ENTER).perform()
    proxy.said("against on 50 shares")

    tell("close and declare; the pages of the others show it by themselves")
    secretary.shots("12-secretary-poll")
    for number in "12":
        desk.relay.lose = 1
        secretary.click(f"#close-{number}")
        secretary.sure("can not be opened again")
        secretary.said(f"No reply came, but it was done. The voting is closed on resolution {number}.")
        secretary.click(f"#declare-{number}")
        secretary.sure("can not be changed")
        secretary.said(f"The result is declared of resolution {number}.")
    expected = {"1": ("Carried", [110, 80, 0, 0, 190]), "2": ("Lost", [60, 50, 40, 40, 190])}
    for person in (secretary, member, proxy):
        for number, (outcome, numbers) in expected.items():
            figure = person.wait(f".result[data-number='{number}']", 60)
            check(figure.find_element(By.CSS_SELECTOR, ".outcome").text == outcome, f"{person.name}: resolution {number}")
            told = [int(cell.text.replace(",", "")) for cell in figure.find_elements(By.CSS_SELECTOR, "td")]
            check(told == numbers, f"{person.name}: resolution {number}: {told}")
            if person is secretary:
                tell(f"read off the secretary's page: resolution {number} {outcome}, for {told[0]}, against {told[1]}, withheld {told[2]}, not voted {told[3]}, of {told[4]}")
    secretary.look_over("results")
    secretary.shots("13-results")
    member.shot("13-member-results-320", 320)
    secretary.click("#room-2")
    secretary.wait("#large[open] .outcome")
    secretary.shot("14-room", 1920, 1080)
    secretary.driver.execute_cdp_cmd("Emulation.setEmulatedMedia", {"media": "print"})
    secretary.shot("15-room-printed", 794, 1123)
    secretary.find("body").send_keys(Keys.ESCAPE)
    secretary.until(lambda: not secretary.all("dialog[open]"), "the large result closes by Escape")
    secretary.shot("16-printed", 794)
    secretary.driver.execute_cdp_cmd("Emulation.setEmulatedMedia", {"media": ""})

    tell("nothing is kept beyond the tab, no key is logged, and peers that sent a part of a request were cut off")
    for person in (secretary, member, proxy):
        kept = person.driver.execute_script("return [localStorage.length, sessionStorage.length, document.cookie.length]")
        check(kept == [0, 0, 0], f"{person.name} kept {kept}")
    front_takes(desk)
    check(all(cut_off(peer) for peer in peers), "slow peers are cut off")
    member.load()
    member.click("#keep")
    member.find("#key-file").send_keys(desk.path("M1.key"))
    member.type("#meeting", "G1")
    member.click("#enter button[type=submit]")
    member.wait("#resolution-1 .result")
    member.driver.refresh()
    member.wait("#resolution-1 .result")
    member.leave()
    check(member.driver.execute_script("return sessionStorage.length") == 0, "leaving forgets the key")

    logs = glob.glob(desk.path("*/access.log"))
    check(len(logs) == 1, f"one log of the front's: {logs}")
    with open(logs[0]) as file:
        logged = file.read()
    check("/m/G1/cast" in logged and not any(key in logged for key in desk.keys.values()), "the front logs requests, and no key")

    tell("without a second key a step whose reply was lost is sent again")
    secretary.enter("OFFICE")
    desk.relay.lose = 1
    secretary.click("#open-send")
    secretary.said("Sending the same again does no harm")
    secretary.click("#reply button")
    secretary.said("It was done the first time. The meeting is opened.")
    secretary.type("#blind-number", "3")
    secretary.click("#declare-3")
    secretary.sure("can not be changed")
    secretary.said("No poll on this resolution was ordered yet")
    secretary.click("#order-3-send")
    secretary.said("A poll on resolution 3 is ordered.")
    secretary.click("#start-3")
    secretary.said("It is too early to start")
    time.sleep(6)
    secretary.click("#start-3")
    secretary.said("The voting is open on resolution 3.")
    desk.relay.lose = 1
    secretary.click("#close-3")
    secretary.sure("can not be opened again")
    secretary.said("Sending the same again does no harm")
    secretary.click("#reply button")
    secretary.said("It was done the first time. The voting is closed on resolution 3.")
    secretary.type("#blind-number", "3")
    secretary.click("#declare-3")
    secretary.sure("can not be changed")
    secretary.said("The result is declared of resolution 3.")
    check(secretary.wait(".result[data-number='3'] .outcome").text == "Lost", "a poll without votes is lost")
    secretary.look_over("without a second key")
    secretary.shots("17-without-second-key")

    tell("the meeting is adjourned, and its second session opened")
    then = datetime.now(ZONE) + timedelta(seconds=25)
    secretary.set("#adjourn-appointed", then.strftime("%Y-%m-%dT%H:%M:%S"))
    secretary.click("#adjourn-send")
    secretary.sure("can not be taken back")
    secretary.said("The meeting is adjourned to")
    # Every resolution is declared, so the page asks no more by itself.
    proxy.click("#refresh")
    proxy.reads("#notice", "Adjourned to session 2", 60)
    proxy.reads("#you", "Who is present is marked anew in each session.")
    proxy.shots("18-adjourned")
    secretary.type("#second-key", desk.keys["LOOK"])
    secretary.click("#second-send")
    secretary.reads("#open", "It can be opened from")
    for party in ("P", "M1"):
        secretary.type("#party", party)
        secretary.click("#presence-send")
        secretary.said(f"{party} is marked as present.")
    secretary.wait("#open-send", 60)
    secretary.reads("#open", "Open session 2")
    secretary.click("#open-send")
    secretary.said("The meeting is opened.")
    secretary.wait("#adjourn-send")
    secretary.look_over("the second session")
    secretary.shots("19-second-session")

    desk.stop()
    printed = desk.run("results", "gm.desk", "G1")
    for part in ["session 2 ", "resolution 1 ordinary carried", "resolution 2 special lost", "resolution 3 ordinary lost"]:
        check(part in printed, f"results: {part}")
    for word, number in [("for", 110), ("against", 80), ("for", 60), ("against", 50), ("withheld", 40)]:
        check(any(line.split() == [word, str(number)] for line in printed.splitlines()), f"results: {word} {number}")


if __name__ == "__main__":
    if len(sys.argv) != 2:
        sys.exit("page/test/meeting.py PROGRAM")
    hold(sys.argv[1], PARTIES, ["secretary", "member", "proxy"], day)
