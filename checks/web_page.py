#!/usr/bin/python3
"""Opens the page of examples/web in a browser, as visitors with a phone and at a desk do, over a copy of the example station and a venue of fifty
levels that `venue serve` serves behind nginx: ways by keyboard alone, what is closed meanwhile, for all or for some, replies with something
exchanged, files that are missing or broken, two languages, a publication, print, and no network; and over the rooms with walls of examples/walls, ways
round corners. And has check.js judge the made answers of compare_checkers.py, and replies with their certificates, beside the checkers in Python.

usage: web_page.py [PROGRAM [large | LOOK ..]]   (without PROGRAM the launcher ./venue, which builds the program if need be)
With `large` it takes a venue of 100,000 features alone, and prints how long the page takes for it. With names of looks, as is_printed, it
takes these alone, and prints how long each took. Without, no look begins after a minute and a half, and the line says which were left out. It
prints one line, and ends with status 1 at a difference. Pictures of the page go to out/pages. Where chromium, its driver, nginx or Debian's python3-selenium is missing it
says so, and ends with status 0.
"""
import base64
import contextlib
import copy
import http.client
import http.server
import importlib.util
import io
import json
import os
import random
import re
import runpy
import shutil
import socket
import subprocess
import sys
import tempfile
import threading
import time
from math import gcd

from random_walls import corners_of
from rooms import Venue, at, in_metres, set_up

try:
    from selenium import webdriver
    from selenium.webdriver.chrome.service import Service
    from selenium.webdriver.common.by import By
    from selenium.webdriver.common.action_chains import ActionChains
    from selenium.webdriver.common.keys import Keys
except ImportError:
    webdriver = Service = By = ActionChains = Keys = None

HERE = os.path.dirname(os.path.abspath(__file__))
TOP = os.path.dirname(HERE)
EXAMPLES = os.path.join(TOP, "examples")
PICTURES = os.path.join(TOP, "out", "pages")
SIZES = {"phone": (390, 844), "desk": (1440, 900)}
ID = "00000000-0000-4000-8000-{:0>12}"
BAKERY, TICKETS, LIFT, RAMP, STAIRS, RESTROOM = (ID.format(digits) for digits in (51, 52, 301, 24, 22, 31))
TAG = "<script>window.bad = 1</script><b>"
LONGEST = 90  # seconds after which no further look begins, so that a machine with much else to do is done in time too
SLACK = 4  # how much longer a try may take here than it is to, on a machine that others use too
WHEELCHAIR = f"#from={BAKERY}&to={TICKETS}&profile=wheelchair"


def free_ports(count):
    doors = [socket.create_server(("127.0.0.1", 0)) for _ in range(count)]
    ports = [door.getsockname()[1] for door in doors]
    for door in doors:
        door.close()
    return ports


class Between(http.server.ThreadingHTTPServer):
    """Stands between nginx and the server, and exchanges something of a reply where a test asks for it."""
    daemon_threads = True
    change = None  # from a path and the body of a reply to another body, or None for a connection that ends without one
    post = None  # from a path and what passes a change on to what comes back, a status and a body, or None as above

    def __init__(self, port, server):
        super().__init__(("127.0.0.1", port), Passing)
        self.server_port_behind, self.posts = server, []
        threading.Thread(target=self.serve_forever, daemon=True).start()


class Passing(http.server.BaseHTTPRequestHandler):
    def do_GET(self):
        status, body = ask(self.server.server_port_behind, self.path)
        if self.server.change:
            body = self.server.change(self.path, body)
        self.reply(status, body)

    def do_POST(self):
        body, key = self.rfile.read(int(self.headers["content-length"])), self.headers.get("x-staff-key")
        self.server.posts.append((self.path, json.loads(body)))
        passes = lambda: asked(self.server.server_port_behind, "POST", self.path, body, key)
        self.reply(*(self.server.post(self.path, passes) if self.server.post else passes()) or (0, None))

    def reply(self, status, body):
        self.close_connection = True
        if body is not None:
            self.wfile.write(b"HTTP/1.0 %d OK\r\ncontent-type: application/json\r\ncontent-length: %d\r\n\r\n" % (status, len(body)) + body)

    def log_message(self, *words):
        pass


def ask(port, target, change=None):
    """The status and the body of a reply: to a question, or to a change with the key of the desk."""
    return asked(port, "POST" if change else "GET", target, json.dumps(change) if change else None, "desk-key-1")


def asked(port, method, target, body, key):
    link = http.client.HTTPConnection("127.0.0.1", port, timeout=20)
    link.request(method, target, body, {"x-staff-key": key or "", "connection": "close"})
    reply = link.getresponse()
    found = reply.status, reply.read()
    link.close()
    return found


class Site:
    """A venue as it is served: the program, what stands between, nginx, and the files that a test may break."""

    staff = ""  # the network of staff, for site.py

    def __init__(self, program, folder, venue="station", base=None):
        self.base, self.files, self.served, self.venue, self.program = base or os.path.join(folder, "base"), os.path.join(folder, "site"), [], venue, program
        if base is None:
            self.copy_station()
        self.server, between, self.port = free_ports(3)
        self.start_server()
        self.between = Between(between, self.server)
        self.write(f"127.0.0.1:{between}")
        self.start_nginx()

    def copy_station(self):
        """The station, with names that try what a page does with them: markup, two languages, another name, and two shops of one name."""
        station = os.path.join(self.base, "station")
        shutil.copytree(os.path.join(EXAMPLES, "station"), station)
        shutil.copy(os.path.join(EXAMPLES, "venue.toml"), self.base)
        self.edit(os.path.join(station, "amenity.geojson"), '"category":"restroom"', '"name":{"en":%s,"de":"Abort"},"category":"restroom"' % json.dumps(TAG))
        self.edit(os.path.join(station, "occupant.geojson"), '"name":{"en":"Bakery"}', '"name":{"en":"Bakery","de":"Bäckerei"},"alt_name":{"en":"Crusty Corner"}')

    def write(self, server):
        """Runs site.py, and keeps what it prints."""
        words = [sys.executable, os.path.join(EXAMPLES, "web", "site.py"), self.base, self.venue, self.files, str(self.port), server] + ([self.staff] if self.staff else [])
        ran = subprocess.run(words, capture_output=True, text=True, env=os.environ | {"VENUE": self.program})
        if ran.returncode:
            sys.exit(f"web_page: {ran.stdout}{ran.stderr}")
        self.written, self.address = ran.stdout, server
        with open(os.path.join(self.files, "site.json"), encoding="utf-8") as file:
            self.about = json.load(file)
        self.data = os.path.join("data", self.about["mark"])

    def start_server(self):
        self.start([self.program, "serve", self.base, self.venue, f"127.0.0.1:{self.server}", "4", "100000"], self.server)

    def start_nginx(self):
        self.start(["nginx", "-p", self.files, "-e", "error.log", "-c", "nginx.conf", "-g", "daemon off;"], self.port)

    def start(self, words, port):
        process = subprocess.Popen(words, stdout=subprocess.DEVNULL)
        self.served.append(process)
        for _ in range(300):
            with contextlib.suppress(OSError):
                return socket.create_connection(("127.0.0.1", port)).close()
            if process.poll() is not None:
                break
            time.sleep(0.1)
        sys.exit(f"web_page: {words[0]} doesn't listen")

    def stop(self, count=None):
        """Ends the last processes of this site, or all."""
        for process in self.served[-count:] if count else self.served:
            process.terminate()
            process.wait()
        self.served = self.served[:-count] if count else []

    def post(self, path, change):
        status, body = ask(self.server, path, change)
        assert status == 200, body

    def close(self, feature, closed=True, profiles=None):
        self.post("/v1/closures", {"feature": feature, "closed": closed} | ({"profiles": profiles} if profiles else {}))

    def edit(self, path, old, new):
        text = read(path)
        assert old in text, (path, old)
        with open(path, "w", encoding="utf-8") as file:
            file.write(text.replace(old, new, 1))

    @contextlib.contextmanager
    def broken(self, name, old=None, new=None):
        """A file of the site, or a folder, that is away, or has something exchanged, for a while."""
        path = os.path.join(self.files, name)
        os.rename(path, path + ".kept")
        if old is not None:
            shutil.copy(path + ".kept", path)
            self.edit(path, old, new)
        yield
        if old is not None:
            os.remove(path)
        os.rename(path + ".kept", path)


class Page:
    """A browser with the page, and what is noted of it."""
    file, told, logs = "", ("news", "answer", "trouble"), {}

    def __init__(self, size):
        options = webdriver.ChromeOptions()
        for word in ("--headless=new", "--no-sandbox", "--disable-dev-shm-usage", "--hide-scrollbars", "--disable-gpu", "--js-flags=--expose-gc", "--enable-precise-memory-info"):
            options.add_argument(word)
        options.set_capability("goog:loggingPrefs", {"browser": "ALL"} | self.logs)
        self.site, self.name, self.differences, self.checks = None, size, [], 0
        self.driver = webdriver.Chrome(options=options, service=Service("/usr/bin/chromedriver"))
        self.agent = self.driver.execute_script("return navigator.userAgent")
        self.driver.set_script_timeout(60)
        self.resize(*SIZES[size])
        self.speak("en-GB")

    def resize(self, width, height):
        mobile = self.name == "phone"
        self.tell("Emulation.setDeviceMetricsOverride", width=width, height=height, deviceScaleFactor=1, mobile=mobile)

    def speak(self, language):
        self.tell("Network.setUserAgentOverride", userAgent=self.agent, acceptLanguage=language)

    def look(self, **features):
        """What the visitor's system asks for: colour scheme, forced colours."""
        self.tell("Emulation.setEmulatedMedia", features=[{"name": name.replace("_", "-"), "value": value} for name, value in features.items()])

    def tell(self, command, **words):
        return self.driver.execute_cdp_cmd(command, words)

    def script(self, text, *words):
        return self.driver.execute_script(text, *words)

    def open(self, fragment="", waits=True):
        self.driver.get("about:blank")
        self.tell("Network.clearBrowserCache")
        self.driver.get(f"http://127.0.0.1:{self.site.port}/{self.file}{fragment}")
        if waits:
            self.until("the page has begun", lambda: self.text("live") not in ("", "Loading the map …"))

    def nudge(self):
        """Has the page ask now, as it does when it comes to the front, and not only in ten seconds."""
        self.script("document.dispatchEvent(new Event('visibilitychange'))")

    def ask_again(self):
        self.push(".again")

    def text(self, identifier):
        return self.driver.find_element(By.ID, identifier).text.replace("\u00a0", " ")

    def value(self, identifier):
        return self.driver.find_element(By.ID, identifier).get_attribute("value")

    def count(self, selector):
        return len(self.driver.find_elements(By.CSS_SELECTOR, selector))

    def drawn(self, what):
        """How many of these things the map has drawn, or the level that it shows."""
        return int(self.driver.find_element(By.ID, "view").get_attribute(f"data-{what}"))

    def tap(self, name):
        """Taps the mark of this name."""
        call = "const [name, done] = arguments; import('./map.js').then(({ shown }) => import('./names.js').then(({ titleOf }) => { const it = shown.drawn.marks.find(({ it }) => titleOf(it) === name); done(it && [it.x, it.y]) }))"
        x, y = self.driver.execute_async_script(call, name)
        view = self.driver.find_element(By.ID, "view")
        ActionChains(self.driver).move_to_element_with_offset(view, x - view.size["width"] / 2, y - view.size["height"] / 2).click().perform()

    def press(self, *keys):
        ActionChains(self.driver).send_keys(*keys).perform()

    def type(self, field, text):
        """Types into an emptied field, and returns what the list then offers."""
        it = self.driver.find_element(By.ID, field)
        it.send_keys(Keys.CONTROL, "a", Keys.NULL, text)
        return self.text(f"{field}-list")

    def focused(self):
        return self.script("const it = document.activeElement; return it.id || it.name || it.textContent")

    def check(self, what, holds):
        self.checks += 1
        if not holds:
            self.differences.append(f"{self.name}: {what}: " + ", ".join(f"{it} {self.text(it)!r}" for it in self.told))

    def until(self, what, holds, seconds=30):
        """Tries until it holds, and no more once it did, since a try may tap."""
        end, found = time.monotonic() + seconds, False
        while not found:
            is_last = time.monotonic() >= end
            with contextlib.suppress(Exception):  # The page may be at work upon what is looked at.
                found = holds()
            if is_last:
                break
            if not found:
                time.sleep(0.05)
        self.check(what, found)

    def push(self, selector):
        """Clicks the first of these, as soon as it can be clicked."""
        self.until(f"{selector} can be clicked", lambda: self.driver.find_element(By.CSS_SELECTOR, selector).click() is None)

    def says(self, identifier, *texts, seconds=30):
        self.until(" and ".join(texts), lambda: all(text in self.text(identifier) for text in texts), seconds)

    def picture(self, name):
        os.makedirs(PICTURES, exist_ok=True)
        time.sleep(0.1)
        self.driver.save_screenshot(os.path.join(PICTURES, f"{name}-{self.name}.png"))

    def quit(self):
        """Whether no script failed and nothing broke the policy; that a reply wasn't found or didn't come is told as the network's."""
        for line in self.driver.get_log("browser"):
            self.check(f"the console says {line['message']}", line["source"] == "network" or "service worker" in line["message"])
        self.driver.quit()


def asks_by_keyboard(page):
    page.open()
    for text, field in (("bak", "from"), ("tick", "to")):
        for _ in range(9):
            page.press(Keys.TAB)
            if page.focused() == field:
                break
        page.check(f"the tabulator leads to {field}", page.focused() == field)
        page.press(text, Keys.ENTER)
    page.says("answer", "70 m", "about 1 minute", "Checked: no shorter way", "15 m counted for the stairs")
    page.press(Keys.TAB, Keys.TAB, Keys.ARROW_RIGHT)
    page.says("answer", "60 m", "and 30 m counted for the lift", "Checked: no shorter way without steps", "Take the lift up to level 1")
    page.check("a ride is one step", page.count("#answer ol li") == 4)
    page.check("the exact lengths", "60.40 m walked, 90.40 m with" in page.script("return document.querySelector('#answer details').textContent"))
    page.until("the way on level 0", lambda: page.drawn("lines") == 3 and page.text("caption") == "Level 0")
    page.picture("way")
    page.press(Keys.TAB)
    page.check("the map has the focus", page.focused() == "view")
    scale = lambda: page.script("return [document.getElementById('scale').textContent, document.getElementById('scale').style.width].join(' ')")
    before = scale()
    page.press("+", Keys.ARROW_LEFT)
    page.until("keys zoom the map", lambda: scale() != before)
    page.press("0", Keys.TAB, Keys.TAB, Keys.ENTER)
    page.until("a key shows level 1", lambda: page.text("caption") == "Level 1" and page.drawn("lines") == 2)
    page.picture("upstairs")


def goes_on_by_itself(page):
    """The page of before is told of what staff close, and answers anew."""
    page.site.close(LIFT)
    page.says("news", "Closed on your way: Lift, level 0. This is the new way.", seconds=15)
    page.says("answer", "120 m", "20 m counted for the ramp", "Checked: no shorter way without steps")
    page.until("what is closed is drawn and told", lambda: page.drawn("closed") == 1 and "Lift, level 0" in page.text("closures"))
    page.picture("lift-closed")
    page.site.close(RAMP)
    page.nudge()
    page.says("news", "Closed on your way: Ramp, level 0 to 1. There is no other way.", seconds=15)
    page.says("answer", "There is no way without steps", "16 places can be reached", "Checked: there is none")
    page.until("what can be reached is shaded, and no way drawn", lambda: page.drawn("reached") == 4 and page.drawn("lines") == 0)
    page.picture("no-way")
    page.driver.find_element(By.CSS_SELECTOR, "input[value=wheelchair]").send_keys(Keys.ARROW_LEFT)
    page.says("answer", "70 m", "15 m counted for the stairs", "Checked: no shorter way")
    for feature in (LIFT, RAMP):
        page.site.close(feature, False)


def is_closed_for_some(page):
    """What is closed for wheelchairs alone leaves a walker's way as it is and leads a wheelchair's round, and the list says for whom."""
    page.site.close(STAIRS, profiles=["walk"])
    page.open(WHEELCHAIR.replace("wheelchair", "walk"))
    page.says("answer", "60 m", "30 m counted for the lift", "Checked: no shorter way")
    page.says("closures", "Closed now", "Stairs, level 0 to 1\nOnly for: On foot")
    page.until("the sign of the stairs for a walker", lambda: page.drawn("closed") == 1)
    page.site.close(LIFT, profiles=["wheelchair"])
    page.says("closures", "Stairs, level 0 to 1\nOnly for: On foot\nLift, level 0\nOnly for: Wheelchair", seconds=15)
    version = json.loads(ask(page.site.server, "/v1/version")[1])["version"]
    page.until("the answer is of the new version", lambda: f"Version {version}," in page.script("return document.querySelector('#answer details').textContent"))
    page.check("a walker's way stays", all(text in page.text("answer") for text in ("60 m", "Take the lift up to level 1", "Checked: no shorter way")))
    page.check("no news, and no sign of the lift for a walker", not page.text("news") and page.drawn("closed") == 1)
    page.picture("closed-for-wheelchairs-walk")
    page.script("location.hash = arguments[0]", WHEELCHAIR)
    page.says("answer", "120 m", "20 m counted for the ramp", "Checked: no shorter way without steps")
    page.until("the sign of the lift for a wheelchair", lambda: page.drawn("closed") == 1 and page.drawn("lines") == 2)
    page.picture("closed-for-wheelchairs")
    page.script("document.getElementById('closures').scrollIntoView({ block: 'end' })")
    page.picture("closed-for-wheelchairs-list")
    page.script("scrollTo(0, 0)")
    page.site.close(LIFT, False, ["wheelchair"])
    page.says("answer", "60 m", "30 m counted for the lift", seconds=15)
    page.site.close(LIFT, profiles=["wheelchair"])
    page.says("news", "Closed on your way: Lift, level 0. This is the new way.", seconds=15)
    page.says("answer", "120 m")
    page.site.close(LIFT)
    page.until("closed for all it is told as such", lambda: page.text("closures").endswith("Only for: On foot\nLift, level 0"), 15)
    page.site.between.change = lambda path, body: body.replace(b"profiles", b"profile") if path.startswith("/v1/closures") else body
    page.open(WHEELCHAIR)
    page.says("answer", "Not proved: what is closed isn't told in its form. No way is drawn.")
    page.site.between.change = None
    page.ask_again()
    page.says("answer", "120 m", "Checked: no shorter way without steps")
    page.speak("de-CH")
    page.open(WHEELCHAIR)
    page.says("closures", "Zurzeit gesperrt", "Treppe, Ebene 0 bis 1\nNur für: Zu Fuß")
    page.speak("en-GB")
    for feature in (STAIRS, LIFT):
        page.site.close(feature, False)


def is_tapped(page):
    page.open()
    page.says("live", "Live")
    page.until("a mark can be tapped", lambda: "Bakery" in page.text("card") or page.tap("Bakery") or "Bakery" in page.text("card"))
    page.says("card", "Bakery", "From here", "To here")
    page.picture("tapped")
    page.push("#card button")
    page.check("a tap chooses", page.value("from") == "Bakery")


def spoil_by(spoil):
    """What exchanges one thing of a reply of /v1/route."""
    def change(path, body):
        if not path.startswith("/v1/route"):
            return body
        reply = json.loads(body)
        spoil(reply)
        return json.dumps(reply).encode()
    return change


def less_start(reply):
    reply["potentials"] = [mark for mark in reply["potentials"] if mark["node"] != reply["start"]]


def raise_first(reply):
    """Raises the potential of the node to which the first step leads."""
    mark = next(mark for mark in reply["potentials"] if mark["node"] == reply["steps"][0]["to"])
    mark["value"] += 1


def less_other_level(reply):
    """Leaves out the highest potential of a node that isn't on the level of the start, so it counts as `cost`, and a link from a lower one breaks that."""
    there = [mark for mark in reply["potentials"] if int(mark["node"][-12:]) in range(201, 205) or int(mark["node"][-12:]) in range(400, 405)]
    reply["potentials"].remove(min(there, key=lambda mark: mark["value"]))


def lower_end(reply):
    """Says of the end of a way that it lies lower than the way costs."""
    if reply["result"] == "route" and reply["steps"]:
        reply["potentials"].append({"node": reply["steps"][-1]["to"], "value": reply["cost"] - 1})


# What is exchanged of a reply, the clause that then fails, and the sentence of the page where it is asked for it.
SPOILS = {
    "a cost off by one": (lambda reply: reply.update(cost=reply["cost"] + 1), "sum", "its steps don't add up to its cost"),
    "a step off by one": (lambda reply: reply["steps"][1].update(cost=3006), "step 2", "one of its steps is no link that is open"),
    "a step left out": (lambda reply: reply["steps"].pop(), "end", None),
    "potentials without the start": (less_start, "start", None),
    "a potential off by one": (raise_first, "link", "by its own numbers a shorter way may be there"),
    "the end lower than the cost": (lower_end, "finish", None),
    "a potential twice": (lambda reply: reply["potentials"].append(reply["potentials"][0]), "potentials", None),
    "a potential that is a text": (lambda reply: reply["potentials"][0].update(value="0"), "potentials", None),
    "a potential left out on another level": (less_other_level, "link of part between", None),
    "another end": (lambda reply: reply.update(to=RESTROOM), "asked", None),
    "another version": (lambda reply: reply.update(version=0), "version", None),
    "no way told of a way": (lambda reply: reply.update(result="none", reached=[reply["start"]]), "link", "by its own numbers a shorter way may be there"),
    "the end among what is reached": (lambda reply: reply.update(result="none", reached=[reply["start"], ID.format(42)]), "finish", None),
    "the start not among what is reached": (lambda reply: reply.update(result="none", reached=[]), "start", None),
    "steps that are no list": (lambda reply: reply.update(steps=7), "form", "it isn't of its form"),
    "a result of another name": (lambda reply: reply.update(result="way"), "form", None),
}


def needs_proof(page, fragment, spoils):
    """Of replies with something exchanged the page says what fails, where a sentence is told, and draws nothing."""
    told = {kind: (spoil, sentence) for kind, (spoil, _, sentence) in spoils.items() if sentence}
    page.site.between.change = spoil_by(next(iter(told.values()))[0])
    page.open(fragment)
    page.says("answer", "Not proved: ")
    for kind, (spoil, sentence) in told.items():
        page.site.between.change = spoil_by(spoil)
        page.ask_again()
        page.says("answer", "Not proved: ", sentence)
        page.check(f"{kind}: nothing is drawn", page.drawn("lines") == page.drawn("reached") == 0 and "Checked" not in page.text("answer"))
    page.site.between.change = None


def is_lied_to(page):
    """Of replies with something exchanged, or of none, the page says what is wrong, and draws no way."""
    needs_proof(page, WHEELCHAIR, SPOILS)
    page.picture("not-proved")
    page.site.between.change = lambda path, body: b"<html>" if path.startswith("/v1/route") else body
    page.ask_again()
    page.says("answer", "The server's reply isn't JSON.")
    page.site.between.change = lambda path, body: re.sub(rb'"version":\d+', b'"version":0', body) if path.startswith("/v1/closures") else body
    page.ask_again()
    page.says("answer", "The venue changes faster than an answer can be checked.")
    page.site.between.change = None
    page.open(f"#from={BAKERY}&to=%22%27%3E%3Ci%3E&profile=walk")
    page.says("answer", "The server refuses to answer, with status 400.")


def hears_nothing(page):
    """A server that falls silent, and one that is silent from the beginning: the address keeps the way, and it comes as soon as the server answers."""
    page.open(WHEELCHAIR)
    page.says("answer", "60 m")
    page.site.between.change = lambda path, body: None
    page.nudge()
    page.says("trouble", "The server doesn't answer. What you see is of", seconds=25)
    page.check("the last map stays", page.drawn("units") > 4 and page.drawn("lines") == 3)
    page.picture("no-answer")
    page.site.between.change = None
    page.until("the server is heard again", lambda: not page.text("trouble"), 6)
    page.site.between.change = lambda path, body: None
    page.open(WHEELCHAIR.replace(TICKETS, RESTROOM))
    page.says("answer", "The way is asked for as soon as it does.")
    page.check("the names are there, and the address keeps the way", page.value("from") == "Bakery" and page.driver.current_url.endswith(WHEELCHAIR.replace(TICKETS, RESTROOM)))
    page.site.between.change = None
    page.says("answer", "Checked: no shorter way without steps", seconds=6)
    page.check("nothing is told of the server any more", not page.text("trouble"))
    page.script(f"location.hash = '{WHEELCHAIR.replace('wheelchair', 'walk')}'")
    page.says("answer", "Checked: no shorter way", "the stairs")
    page.check("the profile of a changed address is chosen", page.script("return document.querySelector('input[value=walk]').checked"))
    page.tell("Browser.grantPermissions", permissions=["clipboardReadWrite", "clipboardSanitizedWrite"])
    page.push("#share")
    page.says("answer", "The address is copied.")
    page.check("the address is what is copied", page.driver.execute_async_script("navigator.clipboard.readText().then(arguments[0], String)") == page.driver.current_url)


def reads_broken_files(page):
    data = page.site.data
    cases = [
        ((data,), "trouble", "The map's file"),
        ((f"{data}/level/0.json", '"features"', '"feature"'), "trouble", "The map's file level/0.json can't be read."),
        ((f"{data}/places.json", "[[", "[{["), "trouble", "The map's file places.json can't be read."),
        (("site.json", '"kx"', "kx"), "trouble", "The settings of this site can't be read, so there is no map."),
        ((f"{data}/links/parts.txt",), "answer", "The table of links isn't there, so no way can be checked."),
        ((f"{data}/links/parts.txt", "imdf-parts 1", "imdf-parts 2"), "answer", "The table of links is of another version than this page reads"),
        ((f"{data}/links/parts.txt", ID.format(301), ID.format(302)), "answer", "The map is being renewed."),
        ((f"{data}/links/parts.txt", f"node {ID.format(404)}", f"node {ID.format(405)}"), "answer", "The map is being renewed."),
        ((f"{data}/links/wheelchair/between.txt",), "answer", "The table of links isn't there, so no way can be checked."),
        ((f"{data}/links/wheelchair/0.txt", page.site.about["mark"], "0" * 16), "answer", "The map is being renewed. Load the page again."),
        ((f"{data}/links/wheelchair/0.txt", "costs ", "costs 0"), "answer", "The table of links can't be read (form 0.txt 3)"),
        ((f"{data}/links/wheelchair/0.txt", "costs 633 ", "costs 634 "), "answer", "Not proved: one of its steps is no link that is open"),
        ((f"{data}/links/wheelchair/between.txt", " 3000 ", " 2999 "), "answer", "Not proved: one of its steps is no link that is open"),
    ]
    for change, where, sentence in cases:
        with page.site.broken(*change):
            page.open(WHEELCHAIR)
            page.says(where, sentence)
            page.check(f"once: {sentence}", sentence[-1] != "." or (page.text("trouble") + page.text("answer")).count(sentence) == 1)


def finds_places(page):
    """By any name, by category in both languages, with one mistake; a label with markup is text."""
    page.open()
    page.says("live", "Live")
    page.until("names are there", lambda: "Bakery" in page.type("from", "bak"))
    for text, found in (("bakrey", "Bakery"), ("Bakey", "Bakery"), ("crusty", "Bakery"), ("bäckerei", "Bakery"), ("aufzug", "Lift"), ("elevator 1", "Lift"), ("treppe", "Stairs"), ("zzz", "No place of this name")):
        page.check(f"{text} finds {found}", found in page.type("from", text))
    page.check("an occupant stands for its anchor and its room, once", page.type("from", "bakery").count("Bakery") == 1)
    for text in ("toilet", "WC", "Toilette", "abort", "window"):
        page.check(f"{text} finds the restroom", TAG in page.type("from", text))
    page.check("equal names are told apart", len(set(page.type("from", "stairs").split("\n")[1::2])) == 2)
    page.type("from", "window")
    page.press(Keys.ENTER)
    page.until("the label is told as text", lambda: page.value("from") == TAG)
    page.check("no label is markup", not page.script("return window.bad || document.querySelector('#view b, #from-list b, #view script')"))


def speaks_german(page):
    """The browser's language is taken for sentences and names, another can be chosen, and no sentence is without an entry."""
    page.speak("de-CH")
    page.open(WHEELCHAIR)
    page.says("answer", "60 m", "etwa 1 Minute", "Geprüft: kein kürzerer Weg ohne Stufen", "30 m angerechnet für den Aufzug", "Nehmen Sie den Aufzug hinauf zu Ebene 1", "Verlassen Sie Bäckerei")
    page.check("the page's language", page.script("return document.documentElement.lang") == "de" and page.value("from") == "Bäckerei")
    page.check("nothing is left in English", not re.search(r"\b(the|way|level|Level|Checked|Share|lift|to)\b", page.driver.find_element(By.TAG_NAME, "main").text))
    page.picture("german")
    page.driver.find_element(By.CSS_SELECTOR, "#language select").send_keys("EN")
    page.says("answer", "Checked: no shorter way without steps", "Leave Bakery")
    page.check("the choice holds", page.script("return document.documentElement.lang") == "en")
    page.open()
    page.check("and is remembered", page.script("return document.documentElement.lang") == "en")
    page.script("localStorage.clear()")
    page.speak("en-GB")


def refuses_in_words(page):
    """What site.py can't serve it says in words, and writes nothing."""
    cases = [
        ((EXAMPLES, "tall"), "finding K1 unit.geojson 7 0", "is rejected, as `venue check"),
        ((EXAMPLES, "nothing"), "rejected ", "is rejected, as `venue check"),
        ((HERE, "station"), "", "can't be read"),
    ]
    with tempfile.TemporaryDirectory() as folder:
        for words, *told in cases:
            ran = subprocess.run([sys.executable, os.path.join(EXAMPLES, "web", "site.py"), *words, os.path.join(folder, "site")], capture_output=True, text=True, env=os.environ | {"VENUE": page.site.program})
            page.check(f"site.py refuses {words[1]}: {ran.stderr}", ran.returncode == 1 and all(text in ran.stderr for text in (*told, "nothing is written")))
        page.check("nothing is written", not os.listdir(folder))
    page.check(f"site.py tells what it wrote: {page.site.written}", re.match(r"site: 2 levels, 33 places, 2 profiles with 425 links; 13 files of \d+ bytes, the largest part of a table \d+; for http", page.site.written))


def has_all_sentences(page):
    web = os.path.join(EXAMPLES, "web")
    texts = {name: read(os.path.join(web, name)) for name in sorted(os.listdir(web)) if name.endswith((".js", ".html")) and name not in ("en.js", "de.js", "staff.html")}
    page.open()
    compare_sentences(page, texts, tables_of(page))
    weight = sum(len(text.encode()) for name, text in texts.items() if name != "texts.js") + sum(os.path.getsize(os.path.join(web, name)) for name in ("en.js", "de.js"))
    page.check(f"page and script have {weight} bytes, at most 125,000", weight <= 125_000)


def tables_of(page):
    """The sentences and nouns of the open page, in English and in German."""
    return page.driver.execute_async_script("const done = arguments[0]; Promise.all([import('./en.js'), import('./de.js')]).then((all) => done(all.map((it) => ({ sentences: it.default.sentences, nouns: it.default.nouns }))))")


def compare_sentences(page, texts, tables, built=()):
    """Both tables have the same keys, with the same values in them and all forms of a number; each key that the page says is there, each that is there is said.
    `built` are keys that the page puts together."""
    english, german = tables
    code = "\n".join(texts.values())
    said = set(re.findall(r"""(?:say|Trouble|hint:)\s*\(?"([a-z_.]+)\"""", code)) | {part.split("@")[0] for value in re.findall(r'data-say="([^"]+)"', code) for part in value.split()}
    said |= set(built) | {key for key in english["sentences"] if re.search(r"""["'`]""" + re.escape(key) + r"""["'`]""", code)}
    said |= {key for key in english["sentences"] for start in re.findall(r"say\((?:\w+\.)?`([a-z.]+)\$", code) if key.startswith(start)} | {f"{key}.here" for key in ("from", "to")}
    clauses = set(re.findall(r"""need\(.*, ["`]([a-z]+)""", texts["check.js"])) | {"link", "table"}
    page.check(f"each clause has its sentence: {sorted(clauses)}", clauses == {key[6:] for key in english["sentences"] if key.startswith("fails.")})
    values = lambda text: sorted(set(re.findall(r"\{(\w+)\}", text)))
    for kind in ("sentences", "nouns"):
        page.check(f"equal keys of {kind}: {sorted(set(english[kind]) ^ set(german[kind]))}", set(english[kind]) == set(german[kind]))
    for key in said:
        page.check(f"the sentence {key} has an entry", key in english["sentences"])
    page.check(f"no entry is idle: {sorted(set(english['sentences']) - said)}", not set(english["sentences"]) - said - {"language"})
    for key, entry in english["sentences"].items():
        other, forms = german["sentences"].get(key, ""), lambda it: [it] if isinstance(it, str) else [it[form] for form in ("one", "other")]
        page.check(f"{key} has equal values", [values(text) for text in forms(entry)] == [values(text) for text in forms(other)])
    page.check("each noun has its gender", all(re.match("[mfnp] ", text) for text in german["nouns"].values()))


def tells_turns(page):
    """Turns beyond 30 degrees, names that are passed, also on a leg with bends, lengths as people say them, and one mistake in a word, by made things on a level of their own."""
    page.open()
    found = page.driver.execute_async_script("""const done = arguments[0];
        Promise.all(['way', 'store', 'search'].map((name) => import(`./${name}.js`))).then(([way, { features }, { isNear }]) => {
          const hall = { id: 'hall', type: 'unit', category: 'walkway', point: [0, 0], ordinal: 0, doors: [] };
          const shop = { id: 'shop', type: 'unit', category: 'room', name: { en: 'Florist' }, point: [1500, 800], ordinal: 0 };
          const point = (id, x, y) => ({ id, type: 'opening', category: 'opening', point: [x, y], rooms: [hall], ordinal: 0 });
          const all = [point('a', 0, 0), point('b', 3000, 0), point('c', 3000, 2000), point('d', 3000, -2000), point('e', 5000, 1100), point('f', 5000, 1300), point('g', 0, 0)];
          const door = { ...point('door', 1500, 500), rooms: [hall, shop] }, far = { ...point('far', 1500, 700), rooms: [hall, { ...shop, name: { en: 'Far' } }] };
          hall.doors.push(...all, door, far);
          for (const it of [hall, shop, door, far, ...all]) features.set(it.id, it);
          const leg = (from, to, ...bends) => ({ from, to, via: 'hall', cost: 3000, passage: null, levels: [0, 0], bends });
          const turns = ['c', 'd', 'e', 'f', 'g'].map((to) => way.turnBetween(leg('a', 'b'), leg('b', to)));
          turns.push(way.turnBetween(leg('a', 'b', [3000, 1000]), leg('b', 'c', [2000, 0], [2000, 2000])), way.turnBetween(leg('a', 'b', [2990, 0]), leg('b', 'c', [3000, 10])));
          const step = { legs: [leg('a', 'b')], from: 'a', to: 'b', levels: [0, 0] };
          done([turns, way.passedOn(leg('a', 'b')), way.passedOn(leg('a', 'b', [0, 800], [3000, 800])), way.passedOn(leg('a', 'b', [0, -800], [3000, -800])),
            way.sentenceOf(step, null, ''), [240, 840, 5270, 8683, 46400, 123400].map(way.spokenLength), [2000, 10000, 21000].map(way.spokenTime),
            [['bakrey', 'bakery'], ['bakey', 'bakery'], ['bakkery', 'bakery'], ['pakery', 'bakery'], ['bkary', 'bakery'], ['toil', 'toilet']].map(([a, b]) => isNear(a, b))]);
        }, (wrong) => done([String(wrong)]));""")
    page.check(f"made turns and names: {found}", found == [["right", "left", None, "right", "back", "left", "right"], ["Florist"], ["Far", "Florist"], [], "Go along the walkway, past Florist, to the door",
        ["2 m", "8 m", "55 m", "85 m", "460 m", "1.2 km"], ["less than a minute", "about 1 minute", "about 3 minutes"], [True, True, True, True, False, True]])


HALL = f"#from={ID.format(53)}&to={ID.format(55)}&profile=walk"  # by the corners 15 and 37 of a hall with columns
POINTS = [[5000, -500, 5000, -1000], [5000, -1000, 4050, -1650, 2950, -2350, 2000, -3000], [2000, -3000, 2000, -3500]]  # in centimetres to the east and to the south


@contextlib.contextmanager
def walls(page, venue="concourse", base=os.path.join(EXAMPLES, "walls")):
    """The page over a folder in which ways go round walls, for a while."""
    station = page.site
    with tempfile.TemporaryDirectory() as folder:
        page.site = Site(station.program, folder, venue, base)
        try:
            yield
        finally:
            page.site.stop()
            page.site = station


def lines_of(page, picked=False):
    """The points of the lines that the map has drawn, or of those of the step that is picked."""
    return page.driver.execute_async_script("const [only, done] = arguments; import('./map.js').then(({ shown }) => done(shown.news.lines.filter((it) => !only || it.isPicked).map((it) => it.points)))", picked)


def mark_of_corner(reply):
    """The potential of the corner to which the second step leads."""
    return next(mark for mark in reply["potentials"] if mark.get("corner") == 15)


# As SPOILS, of the corners that the reply over the hall with columns names.
SPOILED_CORNERS = {
    "another corner": (lambda reply: reply["steps"][1].update(corner=16), "step 2", "one of its steps is no link that is open"),
    "a step to the unit": (lambda reply: reply["steps"][1].pop("corner"), "step 2", None),
    "a step to a corner that the table hasn't": (lambda reply: reply["steps"][1].update(corner=57), "step 2", None),
    "a step with a corner that is null": (lambda reply: reply["steps"][0].update(corner=None), "step 1", None),
    "a potential of a corner that the table hasn't": (lambda reply: mark_of_corner(reply).update(corner=57), "node", "it names a place or a corner that the table of links doesn't know, or one twice"),
    "a potential of corner 0": (lambda reply: mark_of_corner(reply).update(corner=0), "node", None),
    "a potential of a corner that is null": (lambda reply: mark_of_corner(reply).update(corner=None), "node", None),
    "a potential of a corner that is a text": (lambda reply: mark_of_corner(reply).update(corner="15"), "node", None),
    "a potential of a corner twice": (lambda reply: reply["potentials"].append(mark_of_corner(reply)), "potentials", None),
    "a potential of a corner left out": (lambda reply: reply["potentials"].remove(mark_of_corner(reply)), "link", None),
}


def bends_at_corners(page):
    """Round columns the line bends and the step is one; it is straight, and the page says so, where the map hasn't the corners of the table."""
    with walls(page):
        table = subprocess.run([page.site.program, "links", page.site.base, "concourse", "walk"], capture_output=True, text=True).stdout
        page.check("the parts have the links of the table", links_of(table) == links_of_parts(links_folder(page), "walk"))
        page.open(HALL)
        page.says("answer", "45 m", "Checked: no shorter way")
        page.until("the line bends at both corners", lambda: lines_of(page) == POINTS)
        rows = [row.text.split("\n") for row in page.driver.find_elements(By.CSS_SELECTOR, "#answer ol li")]
        page.check(f"three steps {rows}", [row[-1] for row in rows] == ["5 m", "35 m", "5 m"] and rows[1][0].endswith("Go along the walkway to the door of E"))
        page.check("the exact length", "46.08 m walked" in page.script("return document.querySelector('#answer details').textContent"))
        page.push("#answer ol li:nth-child(2) button")
        page.until("the step that is picked bends too", lambda: lines_of(page, True) == POINTS[1:2])
        page.picture("round-columns")
        needs_proof(page, HALL, SPOILED_CORNERS)
        judges_spoiled(page, {"from": ID.format(53), "to": ID.format(55), "profile": "walk"}, [[ID.format(53), ID.format(43)], [ID.format(55), ID.format(45)]], SPOILED_CORNERS)
        outline = os.path.join(page.site.data, "walls", "0.json")
        for change in ((outline,), (outline, ",105000,155000,95000,155000]", ",95000,155000]"), (outline, "[[[", "[[7")):
            with page.site.broken(*change):
                page.open(HALL)
                page.says("answer", "Checked: no shorter way", "The map hasn't the corners here that the table of links has", "Walkway, level 0.", "35 m")
                page.until("the line is straight there", lambda: lines_of(page) == [POINTS[0], POINTS[1][:2] + POINTS[1][-2:], POINTS[2]])
        page.picture("without-corners")
        page.open(HALL)
        page.until("the way is kept", lambda: is_kept(page, "walk"))
        page.site.stop(1)
        page.open(HALL)
        page.says("answer", "The server doesn't answer. This is the way of ", "Checked: no shorter way")
        page.until("a kept way bends too", lambda: lines_of(page) == POINTS)


def fin(base):
    """A hall of 40 by 80 metres, into which a room stands from the north and keeps two places apart. A machine is at the room's south side, its door on the west."""
    outline = [(0, 0), (40, 0), (40, 80), (22, 80), (22, 5), (18, 5), (18, 80), (0, 80)]
    venue = Venue(*in_metres([(40, 80)])[0]).room([in_metres(outline)]).room([in_metres([(18, 5), (22, 5), (22, 80), (18, 80)])], number=301, category="room")
    venue.anchor(*in_metres([(15, 78), (25, 78)])).anchor(*in_metres([(20, 40)]), first=43, unit=301).door(*in_metres([(18, 20), (18, 22)]))
    (machine,) = in_metres([(20, 4.6)])
    venue.add("amenity", 31, {"type": "Point", "coordinates": at(machine)}, {"category": "atm", "unit_ids": [ID.format(300)]})
    os.makedirs(base)
    set_up(base, True)
    venue.write(os.path.join(base, "fin"))


def in_place_of_corner(other):
    """Exchanges the first corner that can be reached."""
    return lambda reply: reply["reached"].__setitem__(next(k for k, it in enumerate(reply["reached"]) if isinstance(it, dict)), other)


# As SPOILS, of what can be reached in the hall of the fin.
SPOILED_REACHED = {
    "a text for a corner": (in_place_of_corner(ID.format(300)), "link", "by its own numbers a shorter way may be there"),
    "an object for no corner": (in_place_of_corner({"node": ID.format(300)}), "node", "it names a place or a corner"),
    "corner 0": (in_place_of_corner({"corner": 0, "node": ID.format(300)}), "node", None),
    "a corner that is null": (in_place_of_corner({"corner": None, "node": ID.format(300)}), "node", None),
    "a corner that the table hasn't": (in_place_of_corner({"corner": 3, "node": ID.format(300)}), "node", None),
    "a corner of a place": (in_place_of_corner({"corner": 1, "node": ID.format(41)}), "node", None),
    "null": (in_place_of_corner(None), "node", None),
    "a corner twice": (lambda reply: reply["reached"].append(next(it for it in reply["reached"] if isinstance(it, dict))), "node", None),
}


def goes_round_walls(page):
    """A line that bends far from both ends is in view as a whole, and marks keep off it; where a door is closed, rooms of which a corner can be reached are shaded."""
    with tempfile.TemporaryDirectory() as folder:
        fin(os.path.join(folder, "base"))
        with walls(page, "fin", os.path.join(folder, "base")):
            marks = "const done = arguments[0]; import('./map.js').then(({ shown }) => done(shown.drawn.marks.map(({ it, x, y }) => [it.id, x, y])))"
            marked = lambda: {it: (x, y) for it, x, y in page.driver.execute_async_script(marks)}
            page.open()
            page.until("the machine has its mark", lambda: ID.format(31) in marked())
            page.open(f"#from={ID.format(41)}&to={ID.format(42)}&profile=walk")
            page.says("answer", "150 m", "Checked: no shorter way")
            page.until("the line goes round", lambda: lines_of(page) == [[1500, -7800, 1800, -500, 2200, -500, 2500, -7800]])
            for _ in ("the whole way", "its step"):
                page.until("it is in view", lambda: is_in_view(page, marked()))
                page.check("its machine has no mark on it", ID.format(31) not in marked())
                page.push("#answer ol li button")
            page.picture("round-a-room")
            page.site.close(ID.format(101))
            page.open(f"#from={ID.format(42)}&to={ID.format(43)}&profile=wheelchair")
            page.says("answer", "There is no way without steps", "3 places can be reached", "Checked: there is none")
            page.until("the hall is shaded", lambda: page.drawn("reached") == 1 and page.drawn("lines") == 0)
            needs_proof(page, page.script("return location.hash"), SPOILED_REACHED)
            judges_spoiled(page, {"from": ID.format(42), "to": ID.format(43), "profile": "wheelchair"}, [], SPOILED_REACHED)


def is_in_view(page, marks):
    """Whether the corners of the fin's hall are in view, by where the marks of the two ends are."""
    (west, y), (east, _) = marks[ID.format(41)], marks[ID.format(42)]
    return 0 < west < east and 0 < y and y + 73 * (east - west) / 10 < page.driver.find_element(By.ID, "view").size["height"]


def finds_corners(page):
    """The corners of made rooms are those that random_walls.py finds, also where a turn is so small beside its products that rounding would change it; those of
    30,000 rooms are there in a second."""
    chance = random.Random(17)
    rooms = [[[some_ring(chance) for _ in range(chance.randint(1, 3))] for _ in range(chance.randint(1, 2))] for _ in range(500)]
    rows = [[[[value for place in [*ring, ring[0]] for value in place] for ring in rings] for rings in polygons] for polygons in rooms]
    page.open()
    wrong = [row for row, polygons, found in zip(rows, rooms, in_browser(page, "way.js", "cornersOf(it)", rows)) if found != [list(it) for it in corners_of(polygons)]]
    page.check(f"{len(wrong)} rooms have other corners, as {wrong[:1]}", not wrong)
    twice = [[[10, 10, 10, 20, 0, 20, 0, 0, 30, 0, 30, 20, 20, 20, 20, 10, 10, 10, 10, 10]]]
    page.check("from the first position on, also where it is told twice", in_browser(page, "way.js", "cornersOf(it)", [twice]) == [[[10, 10], [20, 10]]])
    (time,) = in_browser(page, "way.js", "((rooms) => { const begun = performance.now(); for (let k = 0; k < 30000; k += 1) cornersOf(rooms[k % rooms.length]); return Math.round(performance.now() - begun); })(it)", [rows])
    page.check(f"the corners of 30,000 rooms in {time} ms", time < 1_000 * SLACK)
    return [f"the corners of 30,000 rooms in {time} ms"]


def some_ring(chance):
    """Places of a ring: a few anywhere, some twice; or three of which the last is off a line of 20 kilometres by less than a product of its sides is rounded by."""
    if chance.randrange(2):
        most = chance.choice([3, 1_000, 10**8])
        places = [(chance.randint(-most, most), chance.randint(-most, most)) for _ in range(chance.randint(3, 12))]
        return [place for place in places for _ in range(chance.choice([1, 1, 1, 2]))] + [(most + 1, 0)]
    x, y = next((x, y) for x, y in ((chance.randint(10**8, 2 * 10**8), chance.randint(10**8, 2 * 10**8)) for _ in range(1_000)) if gcd(x, y) == 1)
    off = chance.randint(-3, 3)
    v = off * pow(x, -1, y) % y
    places = [(0, 0), (x, y), ((x * v - off) // y, v), (chance.randint(-10**8, 10**8), chance.randint(-10**8, 10**8))]
    return places[:chance.choice([3, 4])]


def boxes(page, *selectors):
    return page.script("return arguments[0].map((it) => [...document.querySelectorAll(it)].filter((e) => e.getClientRects().length).map((e) => { const b = e.getBoundingClientRect(); return [b.left, b.top, b.right, b.bottom] }))", list(selectors))


def apart(found):
    return all(c <= e + 0.5 or g <= a + 0.5 or d <= f + 0.5 or h <= b + 0.5 for k, (a, b, c, d) in enumerate(found) for e, f, g, h in found[:k])


def fits_everywhere(page):
    """With 2, 10, 50 and 200 levels, at all widths and zoomed to 200% and 400%, the chosen level is in sight, nothing covers anything, nothing runs over the side."""
    path = os.path.join(page.site.files, "site.json")
    kept = read(path)
    try:
        for levels in (2, 10, 50, 200):
            about = json.loads(kept)
            about["levels"] = [about["levels"][min(k, 1)] | {"ordinal": k, "name": {"en": f"Floor {k} with a long name"}} for k in range(levels)]
            with open(path, "w", encoding="utf-8") as file:
                json.dump(about, file)
            page.open()
            for width, height in ((1440, 900), (720, 450), (320, 640), (360, 225)):
                page.resize(width, height)
                page.until("the chosen level is there", lambda: page.script("const it = document.querySelector('#levels select, [aria-pressed=true]'); if (!it) return false; const b = it.getBoundingClientRect(), l = document.getElementById('levels').getBoundingClientRect(); return b.left >= l.left - 1 && b.right <= l.right + 1 && b.width > 30"))
                found = sum(boxes(page, "#view", "#levels", "#caption" if levels < 7 else "#none", "#zoom"), [])
                page.check(f"{levels} levels at {width} x {height}: nothing covers anything {found}", apart(found) and len(found) >= 3)
                page.check(f"{levels} levels at {width} x {height}: nothing runs over the side", page.script("return document.documentElement.scrollWidth <= innerWidth"))
                if (levels, width) in ((10, 320), (50, 1440), (200, 320), (200, 720)):
                    page.picture(f"levels-{levels}-{width}")
    finally:
        with open(path, "w", encoding="utf-8") as file:
            file.write(kept)
    page.resize(320, 640)
    page.open(WHEELCHAIR)
    page.says("answer", "60 m")
    page.picture("320")
    page.resize(320, 225)
    page.check("at 400% nothing runs over the side", page.script("return document.documentElement.scrollWidth <= innerWidth"))
    page.check("at 400% the map scrolls with the rest", page.script("return getComputedStyle(document.getElementById('map')).position") == "static")
    page.picture("400-percent")
    page.resize(*SIZES[page.name])


def looks_otherwise(page):
    """Dark, and with the colours of the system alone, in which what is chosen is seen."""
    colours = "return ['walk', 'wheelchair'].map((it) => getComputedStyle(document.querySelector(`input[value=${it}] + span`)).backgroundColor).concat([...document.querySelectorAll('#levels button')].map((it) => getComputedStyle(it).backgroundColor))"
    page.look(prefers_color_scheme="dark")
    page.open(WHEELCHAIR)
    page.says("answer", "60 m")
    shade = page.script("return getComputedStyle(document.documentElement).backgroundColor")
    page.check(f"dark is dark: {shade}", sum(map(int, re.findall(r"\d+", shade)[:3])) < 200)
    page.picture("dark")
    page.look(forced_colors="active")
    page.open(WHEELCHAIR)
    page.says("answer", "60 m")
    walk, chair, low, high = page.script(colours)
    page.check(f"what is chosen is seen in forced colours: {walk} {chair} {low} {high}", walk != chair and low != high)
    page.picture("forced")
    page.look()


def tells_states(page):
    """While it loads the page says so, and that it looks for a way: all that it ever told is noted from the beginning."""
    note = "window.told = new Set(); new MutationObserver(() => { for (const id of ['live', 'answer']) window.told.add(document.getElementById(id)?.textContent) }).observe(document, { subtree: true, childList: true, characterData: true });"
    noted = page.tell("Page.addScriptToEvaluateOnNewDocument", source=note)["identifier"]
    page.open(WHEELCHAIR)
    page.says("answer", "60 m")
    told = page.script("return [...window.told]")
    page.tell("Page.removeScriptToEvaluateOnNewDocument", identifier=noted)
    for text in ("Loading the map …", "Looking for the way, and checking it …"):
        page.check(f"it says {text}: {told}", text in told)


def is_printed(page):
    page.open(WHEELCHAIR)
    page.says("answer", "60 m")
    page.until("both levels are there", lambda: page.drawn("lines") == 3)
    paper = base64.b64decode(page.tell("Page.printToPDF", paperWidth=8.27, paperHeight=11.69)["data"])
    page.check("a way prints on one page", len(re.findall(rb"/Type ?/Page\b", paper)) == 1)
    page.check("with a map of each level", page.count("#paper canvas") == 2)
    os.makedirs(PICTURES, exist_ok=True)
    with open(os.path.join(PICTURES, "print.pdf"), "wb") as file:
        file.write(paper)
    page.tell("Emulation.setEmulatedMedia", media="print", features=[])
    page.picture("print")
    page.tell("Emulation.setEmulatedMedia", media="", features=[])


def is_kept(page, profile):
    """Whether the last way is one of this profile and is kept, and the worker is there that shows it without a network."""
    kept = "const [profile, done] = arguments; caches.open('kept').then((it) => it.match('last-way.json')).then((it) => it && it.json()).then((it) => done(Boolean(it && it.reply.profile === profile)), () => done(false))"
    return page.driver.execute_async_script(kept, profile) and page.script("return navigator.serviceWorker.controller !== null")


def has_no_network(page):
    """What was once open shows the last way without a network, and from when it is."""
    page.open(WHEELCHAIR)
    page.says("answer", "60 m")
    page.until("the way is kept", lambda: is_kept(page, "wheelchair"))
    page.site.stop(1)
    page.open()
    page.says("answer", "The server doesn't answer. This is the way of ", "60 m", "Checked: no shorter way without steps")
    page.until("the map is there, and the server's silence is told once", lambda: page.drawn("lines") == 3 and page.text("trouble") == "" and page.text("live") == "Kept copy")
    page.picture("offline")
    page.open(WHEELCHAIR.replace("wheelchair", "walk"))
    page.says("answer", "The way is asked for as soon as it does.")
    page.site.start_nginx()
    page.says("answer", "Checked: no shorter way", "the stairs", seconds=6)


def is_renewed(page):
    """Between a publication and its site the page says that the map is being renewed, and then shows the new one."""
    page.open(WHEELCHAIR)
    page.says("answer", "60 m")
    other = os.path.join(page.site.base, "other")
    shutil.copytree(os.path.join(page.site.base, "station"), other)
    page.site.edit(os.path.join(other, "amenity.geojson"), '\n]}', ',{"type":"Feature","id":"%s","feature_type":"amenity","geometry":{"type":"Point","coordinates":[10.0005,50.00025]},"properties":{"category":"atm","unit_ids":["%s"]}}\n]}' % (ID.format(39), ID.format(300)))
    page.site.post("/v1/publish", {"folder": "other"})
    page.nudge()
    page.until("it says that the map is being renewed", lambda: "The map is being renewed." in page.text("trouble") + page.text("answer"))
    page.until("no way is drawn meanwhile", lambda: page.drawn("lines") == 0 and "Checked" not in page.text("answer"))
    page.picture("renewing")
    page.site.venue = "other"
    page.site.write(page.site.address)
    page.until("the new map comes by itself", lambda: page.script("return import('./store.js').then(({ site }) => site.mark)") == page.site.about["mark"], 15)
    page.says("answer", "60 m", "Checked: no shorter way without steps")
    page.check("and nothing is told of it any more", not page.text("trouble") and "ATM" in page.type("from", "atm"))
    page.open(f"#from={ID.format(39)}&to={TICKETS}&profile=wheelchair")
    page.says("answer", "Start at ATM.", "Checked: no shorter way without steps")
    page.site.venue = "station"
    page.site.post("/v1/publish", {"folder": "station"})
    page.site.write(page.site.address)


def goes_far(page):
    """A venue of fifty levels: a way from the lowest to the highest is there soon, its ride is one step, the chooser has them all."""
    station = page.site
    with tempfile.TemporaryDirectory() as folder:
        base = os.path.join(folder, "base")
        subprocess.run([sys.executable, os.path.join(TOP, "bench", "levels.py"), "50", base], check=True)
        page.site = Site(station.program, folder, "levels", base)
        try:
            times = climbs(page, base)
        finally:
            page.site.stop()
            page.site = station
    return [f"a way over fifty levels in {times['way told'] - times['way asked']} ms, {times['way told']} ms since the page was opened"]


def climbs(page, base):
    units = json.loads(read(os.path.join(base, "levels", "unit.geojson")))["features"]
    fragment = f"#from={units[1]['id']}&to={units[-3]['id']}&profile=wheelchair"
    page.open(fragment)
    page.says("answer", "410 m", "Checked: no shorter way without steps", "Take the lift up to level −51 (49 levels)", "Turn left. Go along the walkway")
    page.check("five steps", page.count("#answer ol li") == 5)
    times = marks_of(page)
    page.check(f"a way over fifty levels within 1.5 s: {times}", times["way told"] - times["way asked"] < 1_500 * SLACK)
    page.until("a mark of the ride", lambda: page.drawn("lines") >= 3)
    page.picture("fifty-levels")
    choice = page.driver.find_element(By.CSS_SELECTOR, "#levels select")
    page.check("fifty levels can be chosen", len(choice.find_elements(By.TAG_NAME, "option")) == 50)
    page.push("[data-step=up]")
    page.until("one level up", lambda: page.drawn("level") == -99)
    return times


def marks_of(page):
    """When the page drew its first map, and asked for, had and told the last way, in milliseconds since it began."""
    return page.script("return Object.fromEntries(performance.getEntriesByType('mark').map((it) => [it.name, Math.round(it.startTime)]))")


def zooms_of(page):
    """How long each of some zooms takes from the click until after the next picture, in milliseconds."""
    return page.driver.execute_async_script("""const done = arguments[0], [out, fit, into] = document.querySelectorAll('#zoom button'), times = [];
        (async () => {
          fit.click();
          await new Promise((next) => setTimeout(next, 500));
          for (const button of [into, into, into, out, out, out, out, into, fit]) {
            const begun = performance.now();
            button.click();
            await new Promise((next) => requestAnimationFrame(() => { const tell = new MessageChannel(); tell.port1.onmessage = next; tell.port2.postMessage(0); }));
            times.push(Math.round(performance.now() - begun));
            await new Promise((next) => setTimeout(next, 150));
          }
          done(times);
        })();""")


def is_large(page, buildings=1, slack=None):
    """A venue of `bench/folder.py`, of ten thousand features a building: what it takes for the first map, a way and a zoom, and how much memory."""
    slack, station = slack or SLACK, page.site
    with tempfile.TemporaryDirectory() as folder:
        base, begun = os.path.join(folder, "base"), time.monotonic()
        os.makedirs(base)
        subprocess.run([sys.executable, os.path.join(TOP, "bench", "folder.py"), base, str(buildings)], check=True)
        page.site = Site(station.program if station else page.program, folder, "sound", base)
        lines = [f"{page.site.written.strip()} ({time.monotonic() - begun:.0f} s with the making of the folder)"]
        try:
            shops = [row for row in json.loads(read(os.path.join(page.site.files, page.site.data, "places.json"))) if row[1] == "occupant"]
            high = [row for row in shops if page.site.about["levels"][row[3]]["ordinal"] == 9]
            for name, end in (("large", high[95]), ("large-other", shops[-1]))[:2 if buildings > 1 else 1]:
                page.open(f"#from={shops[0][0]}&to={end[0]}&profile=walk")
                page.until("a verdict", lambda: "Checked" in page.text("answer"), 60)
                times = marks_of(page)
                page.script("gc()")
                heap, zooms = page.script("return Math.round(performance.memory.usedJSHeapSize / 1e6)"), zooms_of(page)
                lines.append(f"{' '.join(page.text('answer').splitlines()[:3])}: first map {times['first map']} ms, way asked {times['way asked']}, answered {times['way answered']}, told {times['way told']} ms, zooms {zooms} ms, heap {heap} MB")
                page.check(lines[-1], times["first map"] < 2_000 * slack and times["way told"] < 5_000 * slack and max(zooms) < 100 * slack and heap < 150)
                page.picture(name)
            begun = time.monotonic()
            page.check("a shop is found by its number", "Shop 97\n" in page.type("from", "shop 97"))
            lines.append(f"a search {time.monotonic() - begun:.2f} s")
            page.picture("large-search")
        finally:
            page.site.stop()
            page.site = station
    return lines if buildings > 1 else []


def measures_large(program):
    page = Page("desk")
    page.program = program
    try:
        print("\n".join(is_large(page, 10, 1)))
    finally:
        for line in page.differences:
            print(line, file=sys.stderr)
        page.driver.quit()
    return 1 if page.differences else 0


def judged_alike(page):
    """texts.js beside check_route.py over the made answers, and check.js beside route_reply.py over replies of the server, of the whole table and of its
    parts: how many, and the differences."""
    spec = importlib.util.spec_from_file_location("compare_checkers", os.path.join(HERE, "compare_checkers.py"))
    made = importlib.util.module_from_spec(spec)
    spec.loader.exec_module(made)
    page.open()
    with tempfile.TemporaryDirectory() as folder:
        bases = sorted(entry.path for entry in os.scandir(EXAMPLES) if entry.is_dir()) + made.made_bases(folder)
        bases += made.station_bases([page.site.program], folder, random.Random(11))[0]
        texts = [[read(os.path.join(base, name)) for name in ("links.txt", "answer.txt")] for base in bases]
        found = in_browser(page, "texts.js", "judgeTexts(...it)", texts)
        wanted = [printed(os.path.join(EXAMPLES, "check_route.py"), [base]) for base in bases]
        for base, one, other in zip(bases, found, wanted):
            page.check(f"{base}: texts.js says {one!r}, check_route.py {other!r}", one == other)
        rows, links = list(made_replies(page)), links_folder(page)
        whole = {profile: subprocess.run([page.site.program, "links", page.site.base, "station", profile], capture_output=True, text=True).stdout for profile in ("walk", "wheelchair")}
        found = verdicts_of(page, rows)
        occupants = os.path.join(EXAMPLES, "station", "occupant.geojson")
        for (asked, reply, closures, _), one in zip(rows, found):
            files = [os.path.join(folder, name) for name in ("reply.json", "table.txt", "closures.json")]
            for path, text in zip(files, (json.dumps(reply), whole[asked["profile"]], json.dumps(closures))):
                with open(path, "w", encoding="utf-8") as file:
                    file.write(text)
            others = [printed(os.path.join(EXAMPLES, "route_reply.py"), [files[0], table, files[2], occupants]) for table in (files[1], os.path.join(links, asked["profile"]))]
            verdicts = [one == "proved proved", *(other == "proved" for other in others)]
            page.check(f"{json.dumps(reply)}: check.js says {one!r}, route_reply.py {others}", len(set(verdicts)) == 1)
        judges_spoiled(page, {"from": BAKERY, "to": TICKETS, "profile": "wheelchair"}, [[BAKERY, ID.format(41)], [TICKETS, ID.format(42)]], SPOILS)
        for profile, table in whole.items():
            page.check(f"the parts of {profile} have the links of its table", links_of(table) == links_of_parts(links, profile))
    return [f"{len(bases)} made answers and {len(rows)} replies judged alike"]


def links_folder(page):
    return os.path.join(page.site.files, page.site.data, "links")


def verdicts_of(page, rows):
    """What check.js says of rows of what was asked, a reply, closures and anchors, by all parts of the profile's table and by those alone that it needs."""
    names = ["between", *range(len(page.site.about["levels"]))]
    files = {profile: [read(os.path.join(links_folder(page), profile, f"{name}.txt")) for name in names] for profile in page.site.about["profiles"]}
    call = """(([asked, reply, closures, anchors, nodes, names, texts]) => { const table = readNodes(nodes);
        const parts = new Map(names.map((name, k) => [name, readPart(texts[k], table, name)]));
        const some = new Map([...parts].filter(([name]) => name === "between" || partsOf(reply, table).has(name)));
        return [parts, some].map((it) => judgeReply(asked, reply, closures, table, it, new Map(anchors))).join(" "); })(it)"""
    nodes = read(os.path.join(links_folder(page), "parts.txt"))
    return in_browser(page, "check.js", call, [[*row, nodes, names, files[row[0]["profile"]]] for row in rows])


def judges_spoiled(page, asked, anchors, spoils):
    """Of the server's reply with something exchanged check.js says what fails."""
    target = f"/v1/route?from={asked['from']}&to={asked['to']}&profile={asked['profile']}&certificate=yes"
    reply, closures = (json.loads(ask(page.site.server, it)[1]) for it in (target, "/v1/closures"))
    spoiled = [copy.deepcopy(reply) for _ in spoils]
    for it, (spoil, _, _) in zip(spoiled, spoils.values()):
        spoil(it)
    found = verdicts_of(page, [[asked, it, closures, anchors] for it in (reply, *spoiled)])
    page.check(f"the reply as it is: {found[0]}", found[0] == "proved proved")
    for (kind, (_, clause, _)), one in zip(spoils.items(), found[1:]):
        page.check(f"{kind}: {one}", re.fullmatch(f"(fails {clause}( .*)?) (fails {clause}( .*)?)", one))


def links_of(table):
    """A table's links in order, with the names of their ends."""
    nodes = named(table)
    return sorted((nodes[int(a)], nodes[int(b)], int(cost), via) for a, b, cost, via in re.findall(r"^link (\d+) (\d+) (\d+) (\S+)$", table, re.M))


def named(text):
    """The nodes of a table by their identifiers, those of corners with their numbers: the k-th further line of an identifier is corner k."""
    nodes = re.findall("^node (.*)$", text, re.M)
    before = [nodes[:k].count(node) for k, node in enumerate(nodes)]
    return [f"{node} {corner}" if corner else node for node, corner in zip(nodes, before)]


def links_of_parts(folder, profile):
    nodes, found = named(read(os.path.join(folder, "parts.txt"))), []
    for name in os.listdir(os.path.join(folder, profile)):
        lines = iter(read(os.path.join(folder, profile, name)).splitlines()[1:-1])
        for word, *words in map(str.split, lines):
            if word == "link":
                found.append((nodes[int(words[0])], nodes[int(words[1])], int(words[2]), words[3]))
                continue
            members = [nodes[int(number)] for number in words[1:]]
            for k in range(len(members) - 1):
                for other, cost in zip(members[k + 1:], next(lines).split()[1:]):
                    found += [(members[k], other, int(cost), words[0]), (other, members[k], int(cost), words[0])]
    return sorted(found)


def made_replies(page):
    """Replies with their certificates, before and after closures, and beside each some with one number exchanged."""
    chance, places = random.Random(3), [31, 41, 42, 51, 52, 101, 107, 203, 300, 301, 305, 404]
    anchors = [[BAKERY, ID.format(41)], [TICKETS, ID.format(42)]]
    for closed in ({}, {LIFT: None}, {LIFT: None, RAMP: None}, {ID.format(305): None}, {LIFT: ["wheelchair"], STAIRS: ["walk"]}, {RAMP: ["walk", "wheelchair"], LIFT: ["walk"]}):
        for feature, profiles in closed.items():
            page.site.close(feature, profiles=profiles)
        closures = json.loads(ask(page.site.server, "/v1/closures")[1])
        for profile in ("walk", "wheelchair"):
            for _ in range(3):
                start, end = (ID.format(place) for place in chance.sample(places, 2))
                asked = {"from": start, "to": end, "profile": profile}
                reply = json.loads(ask(page.site.server, f"/v1/route?from={start}&to={end}&profile={profile}&certificate=yes")[1])
                for spoil in (None, lower_end, spoiled_number, spoiled_number, spoiled_number):
                    other = copy.deepcopy(reply)
                    if spoil:
                        spoil(other)
                    yield asked, other, closures, anchors
        for feature in closed:
            page.site.close(feature, False)


def spoiled_number(reply, chance=random.Random(9)):
    """Exchanges the reply's cost, or one of a step or of a potential, or leaves one item out."""
    lists = [reply[key] for key in ("steps", "potentials", "reached") if reply.get(key)]
    rows = [(row, key) for rows in lists for row in rows if isinstance(row, dict) for key in row if isinstance(row[key], int)]
    if not rows or chance.randrange(3) == 0:
        rows = chance.choice(lists)
        rows.pop(chance.randrange(len(rows)))
    else:
        row, key = chance.choice(rows + [(reply, "cost")] * 3)
        row[key] = max(0, row[key] + chance.choice([-1, 1]))


def read(path):
    if not os.path.exists(path):
        return None
    with open(path, encoding="utf-8") as file:
        return file.read()


def in_browser(page, module, call, rows):
    script = f"const [rows, done] = arguments; import('./{module}').then(({{ judgeTexts, judgeReply, readNodes, readPart, partsOf, cornersOf }}) => done(rows.map((it) => {call})), (wrong) => done([String(wrong)]))"
    return page.driver.execute_async_script(script, rows)


def printed(path, words):
    """What a script prints for these words, run here since there are hundreds."""
    kept, said = sys.argv, io.StringIO()
    sys.argv = [path] + words
    with contextlib.redirect_stdout(said), contextlib.suppress(SystemExit):
        runpy.run_path(path, run_name="__main__")
    sys.argv = kept
    return said.getvalue().strip()


def main(words):
    if words[1:] == ["large"] and not lacking():
        return measures_large(os.path.abspath(words[0]))
    return take_looks("web_page", words, LOOKS, Page, Site, LONGEST)


def lacking():
    return [name for name in ("chromium", "chromedriver", "nginx") if not shutil.which(name)] + ([] if webdriver else ["python3-selenium"])


def take_looks(name, words, looks, make_page, make_site, longest):
    """Takes the looks of each size, or those named, at the page of a site, prints what came of them, and returns the status."""
    if lacking():
        print(f"{name}: skipped, since there is no {' or '.join(lacking())}")
        return 0
    program, checks, differences = os.path.abspath(words[0] if words else os.path.join(TOP, "venue")), 0, []
    with tempfile.TemporaryDirectory() as folder:
        site, told, only, late, first = make_site(program, os.path.join(folder, "station")), [], words[1:], [], time.monotonic()
        try:
            for size in SIZES:
                page = make_page(size)
                page.site = site
                try:
                    for look in looks[size]:
                        if only and look.__name__ not in only:
                            continue
                        begun = time.monotonic()
                        if begun > first + longest and not only:
                            late.append(look.__name__)
                            continue
                        try:
                            told += look(page) or []
                        except Exception as wrong:  # What the browser refused, so that the other looks are taken all the same.
                            page.differences.append(f"{size}: {look.__name__}: {type(wrong).__name__}: {wrong}")
                        if only:
                            print(f"{size} {look.__name__}: {time.monotonic() - begun:.1f} s, {len(page.differences)} differences", flush=True)
                finally:
                    page.quit()
                    checks, differences = checks + page.checks, differences + page.differences
        finally:
            site.stop()
    for line in differences:
        print(line, file=sys.stderr)
    if late:
        told.append(f"left out after {longest} s: {' '.join(late)}")
    print(f"{name}: {', '.join([f'{checks} checks at two sizes', *told, f'{len(differences)} differences'])}")
    return 1 if differences else 0


# What is looked at with a phone and at a desk, what says most first.
LOOKS = {
    "phone": [asks_by_keyboard, goes_on_by_itself, is_closed_for_some, is_tapped],
    "desk": [asks_by_keyboard, is_lied_to, judged_alike, bends_at_corners, goes_round_walls, finds_corners, has_all_sentences, tells_turns, refuses_in_words, goes_far, speaks_german, finds_places, hears_nothing, is_renewed, has_no_network,
             is_printed, reads_broken_files, fits_everywhere, looks_otherwise, tells_states, is_tapped, is_large],
}

if __name__ == "__main__":
    sys.exit(main(sys.argv[1:]))
