"""What the tests by clicks stand on: a desk of their own with page/open in front of it, and browsers.

Desk and front go by libfaketime where they are to be some days behind, so that a proxy who is appointed then counts at a meeting of
today. Between them stands a relay, which loses a reply where it is told to. Pictures of the views are kept in page/test/out.
"""
import glob
import base64
import http.client
import json
import os
import random
import re
import shutil
import signal
import socket
import string
import subprocess
import tempfile
import threading
import time
from zoneinfo import ZoneInfo

from selenium import webdriver
from selenium.webdriver.chrome.options import Options
from selenium.webdriver.chrome.service import Service
from selenium.webdriver.common.by import By
from selenium.webdriver.support.ui import Select

HERE = os.path.dirname(os.path.abspath(__file__))
OUT = os.path.join(HERE, "out")
BEHIND = 6 * 86400
WIDTHS = (1280, 1024, 390, 320)
ZONE = ZoneInfo("Europe/London")
REGISTER = """member,kind,name,shares,paid
M1,individual,Ada Lovelace,100,100
M2,individual,Ben Nevis,40,100
C1,corporation,Carr Holdings Limited,50,100
T1,treasury,The company itself,10,100
"""
checks = 0


def tell(words):
    print(f"{time.strftime('%H:%M:%S')} {words}", flush=True)


def check(holds, words):
    global checks
    checks += 1
    if not holds:
        raise AssertionError(words)


def free_port():
    with socket.socket() as probe:
        probe.bind(("127.0.0.1", 0))
        return probe.getsockname()[1]


class Served:
    """A process of this test's, which has said that it is ready."""

    def __init__(self, words, ready, env=None):
        self.process = subprocess.Popen(words, stdout=subprocess.PIPE, text=True, env=env)
        line = self.process.stdout.readline().strip()
        if not line.startswith(ready):
            self.end()
            raise AssertionError(f"{words[0]} did not start: {line!r}")
        self.line = line

    def end(self):
        if self.process.poll() is None:
            self.process.send_signal(signal.SIGTERM)
            try:
                self.process.wait(20)
            except subprocess.TimeoutExpired:
                self.process.kill()
                self.process.wait()


def clock(behind):
    """The environment of a process whose clock is so many seconds behind."""
    env = dict(os.environ)
    if behind:
        found = glob.glob("/usr/lib/*/faketime/libfaketime.so.1")
        check(found, "libfaketime is not installed")
        # nginx drops its environment, which libfaketime would else read again after ten seconds.
        env.update(LD_PRELOAD=found[0], FAKETIME=f"-{behind}s", FAKETIME_CACHE_DURATION="1000000")
    return env


class Relay:
    """Hands each connection on to the desk. It loses the replies to the next `lose` requests by POST, and does not hand on the next request whose target ends in `fail`."""

    def __init__(self, port):
        self.to, self.lose, self.fail = port, 0, None
        self.socket = socket.create_server(("127.0.0.1", 0))
        self.port = self.socket.getsockname()[1]
        threading.Thread(target=self.run, daemon=True).start()

    def run(self):
        while True:
            client, _ = self.socket.accept()
            threading.Thread(target=self.hand_on, args=(client,), daemon=True).start()

    def hand_on(self, client):
        with client:
            head = client.recv(65536)
            if self.fail and head.split(b" ")[1].endswith(self.fail.encode()):
                self.fail = None
                return
            try:
                desk = socket.create_connection(("127.0.0.1", self.to))
            except ConnectionRefusedError:
                return  # The desk is stopped.
            with desk:
                desk.sendall(head)
                threading.Thread(target=self.pump, args=(client, desk), daemon=True).start()
                reply = b""
                while part := desk.recv(65536):
                    reply += part
                if head.startswith(b"POST") and self.lose > 0:
                    self.lose -= 1
                else:
                    client.sendall(reply)
                # The other thread may still wait in it, and then closing alone would say nothing to the front.
                client.shutdown(socket.SHUT_RDWR)

    @staticmethod
    def pump(client, desk):
        try:
            while part := client.recv(65536):
                desk.sendall(part)
        except OSError:
            pass


class Desk:
    def __init__(self, program, room, parties):
        self.program, self.room, self.port, self.served, self.fronted = program, room, free_port(), None, None
        self.relay, self.at, self.keys = Relay(self.port), free_port(), {}
        # The page is served from a copy, into which a test may put settings.
        for part in ("page", "deploy"):
            shutil.copytree(os.path.join(HERE, "..", "..", part), self.path(part), ignore=shutil.ignore_patterns("test", "settings.json"))
        self.write("register.csv", REGISTER)
        self.run("init", "gm.desk")
        self.give_keys(parties)

    def give_keys(self, parties):
        """Makes new keys for parties, and loads all keys. The desk is stopped."""
        for party in parties:
            self.keys[party] = "".join(random.SystemRandom().choices(string.ascii_letters + string.digits, k=24))
            self.write(f"{party}.key", f"Desk-Key: {self.keys[party]}\nDesk-Party: {party}\n")
        self.write("keys.csv", "party,key\n" + "".join(f"{party},{key}\n" for party, key in self.keys.items()))
        self.run("keys", "gm.desk", "keys.csv")

    def ask(self, party, meeting, verb, body=None):
        """Sends a request as no browser does, straight to the desk."""
        desk = http.client.HTTPConnection("127.0.0.1", self.port, timeout=60)
        desk.request("GET" if verb in ("notice", "mine") else "POST", f"/m/{meeting}/{verb}", None if body is None else json.dumps(body), {"Desk-Key": self.keys[party]})
        reply = json.loads(desk.getresponse().read())
        desk.close()
        check("ok" in reply, f"{party} {meeting} {verb}: {reply}")
        return reply

    def front(self, behind):
        if self.fronted:
            self.fronted.end()
        self.fronted = Served([self.path("page/open"), "--port", str(self.relay.port), "--at", str(self.at)], "http://", dict(clock(behind), TMPDIR=self.room))

    def path(self, name):
        return os.path.join(self.room, name)

    def write(self, name, text):
        with open(self.path(name), "w") as file:
            file.write(text)

    def run(self, *words):
        done = subprocess.run([self.program, *words], cwd=self.room, capture_output=True, text=True)
        said = (done.stdout + done.stderr).strip()
        tell(f"$ desk {' '.join(words)}: {said if len(said) < 80 else 'printed'}")
        check(done.returncode == 0, f"desk {words}: status {done.returncode}")
        return done.stdout

    def serve(self, behind):
        words = [self.program, "serve", self.path("gm.desk"), "--port", str(self.port), "--requests", "1000000000"]
        self.served = Served(words, "listening", clock(behind))

    def stop(self):
        self.served.end()


class Person:
    """A browser, and what is done in it."""

    def __init__(self, name, address, desk):
        self.name, self.address, self.desk = name, address, desk
        options = Options()
        for word in ["--headless=new", "--no-sandbox", "--disable-gpu", "--disable-dev-shm-usage", "--window-size=1100,900", "--lang=en-GB", "--disable-background-networking"]:
            options.add_argument(word)
        options.set_capability("goog:loggingPrefs", {"browser": "ALL"})
        self.driver = webdriver.Chrome(service=Service("/usr/bin/chromedriver"), options=options)
        self.driver.set_page_load_timeout(60)

    def load(self):
        self.driver.get("about:blank")
        self.driver.get(self.address)
        self.wait("#enter")

    def find(self, css):
        return self.driver.find_element(By.CSS_SELECTOR, css)

    def all(self, css):
        return self.driver.find_elements(By.CSS_SELECTOR, css)

    def until(self, holds, words, seconds=40):
        end = time.time() + seconds
        while True:
            try:
                found = holds()
                if found:
                    return found
            except Exception as fault:  # An element that was just made anew.
                if time.time() > end:
                    raise AssertionError(f"{self.name}: {words}: {fault}") from fault
            if time.time() > end:
                self.shot("fault")
                raise AssertionError(f"{self.name}: {words}; the page says: {self.find('#reply').text!r}")
            time.sleep(0.1)

    def wait(self, css, seconds=40):
        return self.until(lambda: next((item for item in self.all(css) if item.is_displayed()), None), f"waits for {css}", seconds)

    def gone(self, css):
        self.until(lambda: not self.all(css), f"waits for {css} to go")

    def click(self, css):
        def clicked():
            item = self.wait(css)
            self.driver.execute_script("arguments[0].scrollIntoView({block: 'center'})", item)
            item.click()
            return True

        self.until(clicked, f"clicks {css}")

    def type(self, css, text):
        def typed():
            item = self.wait(css)
            item.clear()
            item.send_keys(text)
            return True

        self.until(typed, f"types into {css}")

    def set(self, css, value):
        """Fills a field for a date, whose keys depend on the browser's language."""
        self.driver.execute_script("arguments[0].value = arguments[1]; arguments[0].dispatchEvent(new Event('input', {bubbles: true}));", self.wait(css), value)

    def value(self, css):
        """What stands in a field, read at once: the page may draw it anew at any time."""
        return self.driver.execute_script("return document.querySelector(arguments[0]).value", css)

    def choose(self, css, value):
        Select(self.wait(css)).select_by_value(value)

    def said(self, part, seconds=60):
        self.until(lambda: part in self.find("#reply").text, f"waits for the reply {part!r}", seconds)
        check(True, part)

    def reads(self, css, part, seconds=40):
        self.until(lambda: part in self.find(css).text, f"waits for {part!r} in {css}", seconds)
        check(True, part)

    def shot(self, view, width=1100, height=None):
        metrics = {"width": width, "height": 900, "deviceScaleFactor": 1, "mobile": width < 500}
        self.driver.execute_cdp_cmd("Emulation.setDeviceMetricsOverride", metrics)
        if height is None:
            height = self.driver.execute_script("return Math.min(6000, (document.querySelector('#large[open]') ?? document.documentElement).scrollHeight)")
        self.driver.execute_cdp_cmd("Emulation.setDeviceMetricsOverride", {**metrics, "height": height})
        time.sleep(0.2)
        self.driver.save_screenshot(os.path.join(OUT, f"{view}.png"))
        wide = self.driver.execute_script(WIDE)
        self.driver.execute_cdp_cmd("Emulation.clearDeviceMetricsOverride", {})
        check(wide == [], f"{view} at {width} pixels: {wide}")

    def printed(self, view):
        """Prints on A4 what a person would print, keeps the pages, and says how many they are."""
        pages = base64.b64decode(self.driver.execute_cdp_cmd("Page.printToPDF", {"paperWidth": 8.27, "paperHeight": 11.69})["data"])
        with open(os.path.join(OUT, f"{view}.pdf"), "wb") as file:
            file.write(pages)
        return len(re.findall(rb"/Type\s*/Page\b", pages))

    def shots(self, view, height=None):
        for width in WIDTHS:
            self.shot(f"{view}-{width}", width, height)

    def enter(self, party, meeting="G1", file=True):
        self.load()
        if file:
            self.find("#key-file").send_keys(self.desk.path(f"{party}.key"))
        else:
            self.type("#key", self.desk.keys[party])
        self.type("#meeting", meeting)
        self.click("#enter button[type=submit]")
        self.wait("#view section")

    def sure(self, part):
        """Says yes to the one question before a step that can not be taken back, which has these words."""
        self.reads("#sure", part)
        self.click("#sure-yes")

    def leave(self):
        self.click("#leave")
        self.wait("#enter")

    def look_over(self, view):
        """Labels, names, headings, contrast and what the console says."""
        found = self.driver.execute_script(LOOK_OVER)
        check(found == [], f"{self.name} {view}: {found}")
        for line in self.driver.get_log("browser"):
            # A refusal is a status of 400 or more, which the console names; so is that there are no settings.
            known = "Failed to load resource" in line["message"] and ("/m/" in line["message"] or "/settings.json" in line["message"])
            check(known, f"{self.name} {view}: {line['message']}")


# What is wider than the window, or numbers that break.
WIDE = """
const found = [], wide = document.documentElement.clientWidth, open = document.querySelector("dialog[open]");
if (document.documentElement.scrollWidth > wide) found.push("the page is " + document.documentElement.scrollWidth + " wide");
for (const item of (open ?? document.body).querySelectorAll("*")) {
  if (!item.checkVisibility() || item.closest("svg")) continue;
  const { left, right } = item.getBoundingClientRect();
  if (right > wide + 1 || left < -1) found.push(item.tagName + " reaches from " + left + " to " + right + ": " + item.textContent.slice(0, 40));
  if (item.tagName !== "TD") continue;
  const words = document.createRange();
  words.selectNodeContents(item);
  if (new Set([...words.getClientRects()].map(({ top }) => Math.round(top))).size > 1) found.push("a number breaks: " + item.textContent);
}
return found;
"""

LOOK_OVER = """
const found = [];
const shown = (item) => item.checkVisibility();
for (const item of document.querySelectorAll("input, select")) {
  if (shown(item) && !(item.labels && item.labels.length && item.labels[0].textContent.trim())) found.push("no label: " + item.outerHTML);
}
for (const item of document.querySelectorAll("button")) if (!item.textContent.trim()) found.push("no name: " + item.outerHTML);
const ids = [...document.querySelectorAll("[id]")].map((item) => item.id);
for (const id of ids) if (ids.filter((other) => other === id).length > 1) found.push("twice: " + id);
for (const item of document.querySelectorAll("[aria-labelledby], [aria-describedby]")) {
  if (item.tagName === "DIALOG" && !item.open) continue;
  for (const id of (item.getAttribute("aria-labelledby") || item.getAttribute("aria-describedby")).split(" ")) if (!ids.includes(id)) found.push("names nothing: " + id);
}
let last = 0;
for (const item of document.querySelectorAll("h1, h2, h3")) {
  const level = Number(item.tagName[1]);
  if (level > last + 1) found.push("heading out of order: " + item.textContent);
  last = level;
}
if (document.querySelectorAll("h1").length !== 1) found.push("not one h1");
const parts = (colour) => colour.match(/[\\d.]+/g).map(Number);
const light = (colour) => { const [r, g, b] = parts(colour).map((part) => { part /= 255; return part <= 0.04045 ? part / 12.92 : ((part + 0.055) / 1.055) ** 2.4; }); return 0.2126 * r + 0.7152 * g + 0.0722 * b; };
for (const item of document.querySelectorAll("body *")) {
  if (!shown(item) || ![...item.childNodes].some((node) => node.nodeType === 3 && node.textContent.trim())) continue;
  let behind = item;
  while (behind && (parts(getComputedStyle(behind).backgroundColor)[3] ?? 1) === 0) behind = behind.parentElement;
  const one = light(getComputedStyle(item).color), other = behind ? light(getComputedStyle(behind).backgroundColor) : 1;
  const contrast = (Math.max(one, other) + 0.05) / (Math.min(one, other) + 0.05);
  if (contrast < 4.5) found.push("contrast " + contrast.toFixed(2) + ": " + item.textContent.slice(0, 40));
}
return found;
"""


def hold(program, parties, names, play):
    """Plays with a desk on which parties have keys, and a browser for each name."""
    os.makedirs(OUT, exist_ok=True)
    people, desk = [], None
    with tempfile.TemporaryDirectory() as room:
        try:
            desk = Desk(os.path.abspath(program), room, parties)
            desk.front(BEHIND)
            tell(f"the page is at {desk.fronted.line}")
            for name in names:
                people.append(Person(name, desk.fronted.line, desk))
            play(desk, *people)
            tell(f"{checks} checks held; {len(glob.glob(os.path.join(OUT, '*.png')))} pictures in page/test/out")
        finally:
            for person in people:
                person.driver.quit()
            if desk and desk.fronted:
                desk.fronted.end()
            if desk and desk.served:
                desk.stop()
