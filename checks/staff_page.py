#!/usr/bin/python3
"""Opens the staff's page of examples/web in a browser, with a phone and at a desk, over a copy of the example station that `venue serve` serves
behind nginx: closing and opening, for everyone and for some, by taps and by keyboard alone, what it would mean beside what the printed tables say,
publications and their findings, versions that go by, replies that are lost, late, or refusals, a server that begins anew, and no network. A visitor's
page beside it is led round a lift that is closed for who asks there. Of all requests none goes to another origin, and the key stands in no address,
log or storage.

usage: staff_page.py [PROGRAM [LOOK ..]]   (without PROGRAM the launcher ./venue, which builds the program if need be)
With names of looks, as is_keyed, it takes these alone, and prints how long each took. Without, no look begins after five minutes, and the line says
which were left out. It prints one line, and ends with status 1 at a difference. Pictures of the page go to out/pages. Where chromium, its
driver, nginx or Debian's python3-selenium is missing it says so, and ends with status 0.
"""
import contextlib
import json
import os
import re
import subprocess
import sys
import time
import urllib.parse

sys.dont_write_bytecode = True  # so that a clone stays as it is

import web_page
from web_page import EXAMPLES, ID, LIFT, RAMP, SIZES, WHEELCHAIR, By, Keys, apart, ask, boxes, read

KEY, RIDE, STAIRS = "desk-key-1", ID.format(21), ID.format(22)
CART = '[[profile]]\nname = "delivery_cart"\nelevator = true\nramp = true\n'
WEB = os.path.join(EXAMPLES, "web")
LONGEST, MOST_BYTES = 300, 60_000
WALK = WHEELCHAIR.replace("wheelchair", "walk")
CROWDED = 15  # seconds in which a visitor is led round on a machine with more than twice as many processes to run as it has processors
FOLDERS = ("station", "tall", "nolift")


class StaffSite(web_page.Site):
    """A site with the page of staff, which the tests reach since they come from the loopback."""
    staff = "127.0.0.1"

    def write(self, server):
        super().write(server)
        words = [sys.executable, os.path.join(WEB, "staff.py"), self.base, self.files, *FOLDERS]
        ran = subprocess.run(words, capture_output=True, text=True, env=os.environ | {"VENUE": self.program})
        if ran.returncode:
            sys.exit(f"staff_page: {ran.stdout}{ran.stderr}")

    def copy_station(self):
        super().copy_station()
        with open(os.path.join(self.base, "venue.toml"), "a", encoding="utf-8") as file:
            file.write(CART)
        for name in FOLDERS[1:]:
            with contextlib.suppress(FileExistsError):
                os.symlink(os.path.join(EXAMPLES, name), os.path.join(self.base, name))

    def begin_anew(self):
        """Restarts the server: its history begins at version 1, with nothing closed."""
        server = self.served.pop(0)
        server.terminate()
        server.wait()
        self.start_server()
        self.served.insert(0, self.served.pop())

    def closures(self):
        """For whom each feature is closed, None for all."""
        rows = json.loads(ask(self.server, "/v1/closures")[1])["closures"]
        return dict((row, None) if isinstance(row, str) else (row["feature"], row["profiles"]) for row in rows)

    def sent(self):
        """The changes that came since this was asked last, without those that only try a key."""
        posts = [body for _, body in self.between.posts if body]
        self.between.posts.clear()
        return posts


class StaffPage(web_page.Page):
    file, told, logs = "staff.html", ("told", "key-told", "publish-told", "trouble"), {"performance": "ALL"}

    def open(self, fragment="", waits=True, key=KEY):
        super().open(fragment, waits)
        self.until("the map is there", lambda: self.drawn("units") > 4)
        if key:
            self.type_key(key)
            self.says("key-told", "The key is right.")

    def type_key(self, key):
        it = self.driver.find_element(By.ID, "key")
        it.clear()
        it.send_keys(key, Keys.ENTER)

    def click(self, identifier):
        self.push(f"#{identifier}")

    def tap(self, name):
        self.script("document.getElementById('view').scrollIntoView({ block: 'nearest' })")
        super().tap(name)

    def choose(self, name, *says):
        """Taps a mark of the map, and waits for what closing it would mean."""
        self.until(f"{name} can be tapped", lambda: name in self.text("picked") or self.tap(name) or name in self.text("picked"))
        self.says("meaning", "Not proved.", *says)

    def sure(self, identifier="sure"):
        """The second tap, which isn't taken for one that came with the first."""
        time.sleep(0.7)
        self.click(identifier)

    def change_lift(self, *profiles):
        """Closes the lift, or opens it, for these or for everyone."""
        self.choose("Lift")
        self.choose_whom(*profiles or ["Everyone"])
        self.click("act")
        self.sure()

    def focused(self):
        return self.script("const it = document.activeElement; return it.id || it.labels?.[0]?.textContent || it.textContent")

    def another(self, feature, closed=True, profiles=None):
        """Another one closes a feature, or opens it, and the page asks at once."""
        self.site.close(feature, closed, profiles)
        self.nudge()

    def chosen(self):
        return [it.text for it in self.driver.find_elements(By.CSS_SELECTOR, "#whom :checked + span")]

    def choose_whom(self, *titles):
        """Taps what isn't chosen as it is to be, and waits for what the change would mean then."""
        def taps():
            for it in self.driver.find_elements(By.CSS_SELECTOR, "#whom label"):
                if (it.text in titles) != (it.text in self.chosen()):
                    it.find_element(By.TAG_NAME, "input").click()
            return self.chosen() == list(titles)

        self.until(f"{titles} are chosen", taps)
        self.says("meaning", "Not proved.")

    def buttons(self):
        return [it.text for it in self.driver.find_elements(By.CSS_SELECTOR, "#card button") if it.is_displayed()]

    def reset(self):
        """Opens all again, without the page."""
        self.site.between.post = self.site.between.change = None
        for feature in self.site.closures():
            self.site.close(feature, False)
        self.site.sent()

    def publish(self, folder):
        self.script("const it = document.getElementById('folder'); it.value = arguments[0]", folder)
        self.click("publish-act")
        self.sure("publish-sure")


def is_keyed(page):
    """A key is asked for once, a wrong one is told, and where there is none nothing is sent."""
    page.open(key=None)
    page.picture("staff-key")
    page.type_key("short")
    page.says("key-told", "A staff key has 8 to 128 letters")
    page.type_key("wrong-key-1")
    page.says("key-told", "The server doesn't know this key. Nothing was changed.")
    page.check("what was typed stays", page.value("key") == "wrong-key-1")
    page.choose("Lift")
    page.click("act")
    page.sure()
    page.says("told", "Type the staff key first")
    page.check("nothing was sent, and the key has the focus", page.site.sent() == [] and page.focused() == "key")
    page.type_key(KEY)
    page.says("key-told", "The key is right.")
    page.check("what was chosen stays", page.text("picked") == "Lift, level 0 to 1" and page.focused() == "sure")
    page.check("the field is empty and away", page.value("key") == "" and not page.driver.find_element(By.ID, "key").is_displayed())
    page.click("sure")
    page.says("told", "Lift, level 0 to 1 is closed for everyone, as of version")
    page.click("key-forget")
    page.says("key-told", "It stays in this page until the page is closed")
    page.check("a forgotten key is asked for anew", page.driver.find_element(By.ID, "key").is_displayed())
    page.reset()


def closes_in_three_taps(page):
    """A lift is closed by three taps, a double tap sends nothing twice, and a visitor's page beside is led round within two seconds."""
    with visitors(page, WHEELCHAIR) as (visitor,):
        visitor.says("answer", "60 m", "Take the lift up to level 1")
        page.open()
        page.choose("Lift", "Without steps every place keeps its way")
        page.check("the button is in sight", page.script("const b = document.getElementById('act').getBoundingClientRect(); return b.top >= 0 && b.bottom <= innerHeight"))
        page.picture("staff-lift")
        page.click("act")
        page.click("sure")
        page.check("a second tap at once isn't taken for the third", page.site.sent() == [])
        time.sleep(0.7)
        taps = "const it = document.getElementById('sure'); it.click(); it.click(); document.getElementById('sure').click()"
        begun = time.monotonic()
        page.script(taps)
        visitor.until("the visitor is led round", lambda: "Checked: no shorter way without steps" in visitor.text("answer") and "120 m" in visitor.text("answer"))
        took = time.monotonic() - begun
        visitor.check(f"within two seconds, of a machine that isn't crowded: {took:.1f}", took < (2 if os.getloadavg()[0] < 2 * os.cpu_count() else CROWDED))
        page.says("told", "Lift, level 0 to 1 is closed for everyone, as of version")
        page.check("a double tap does nothing twice", page.site.sent() == [{"feature": RIDE, "closed": True}])
        page.says("closures", "Lift, level 0 to 1", "for everyone")
        page.says("history", "Closed: Lift, level 0 to 1. From this page.")
        page.until("it is marked on the map", lambda: page.drawn("closed") == 1)
        page.picture("staff-closed")
        visitor.picture("staff-visitor")
        page.choose("Ramp", "Tickets and Platform would have no step-free way to and from the entrances.", "For people on foot nothing would be cut off.")
        page.script("document.querySelector('[data-ordinal=\"1\"]').click()")
        page.until("what would be cut off is shaded", lambda: page.drawn("level") == 1 and page.drawn("reached") >= 1)
        page.picture("staff-cut")
        page.push("#closures button")
        page.says("meaning", "No place would get a step-free way by it.")
        page.sure()
        page.says("told", "Lift, level 0 to 1 is open for everyone, as of version")
        page.check("it was sent once", page.site.sent() == [{"feature": RIDE, "closed": False}])
        visitor.says("answer", "60 m", seconds=5)
        page.says("closures", "Nothing is closed.")
    page.reset()
    return [f"a visitor's page led round {took:.1f} s after the third tap"]


@contextlib.contextmanager
def visitors(page, *fragments):
    """Visitors' pages beside the staff's, each for a way."""
    found = [web_page.Page("desk") for _ in fragments]
    try:
        for visitor, fragment in zip(found, fragments):
            visitor.site = page.site
            visitor.open(fragment)
        yield found
    finally:
        for visitor in found:
            visitor.quit()
            page.checks += visitor.checks
            page.differences += visitor.differences


def closes_for_some(page):
    """A lift is closed for wheelchairs alone: a wheelchair is led round, and who walks isn't. Then for the others too, and opened for some and for all."""
    site, title = page.site, "Lift, level 0 to 1"
    site.close(STAIRS, profiles=["walk"])
    with visitors(page, WHEELCHAIR, WALK) as (chair, walker):
        for visitor in (chair, walker):
            visitor.says("answer", "60 m", "Take the lift up to level 1", "Checked: no shorter way")
        page.open()
        page.says("closures", "Stairs, level 0 to 1", "for people on foot")
        page.until("it is marked on the map", lambda: page.drawn("closed") == 1)
        page.choose("Lift", "Without steps every place keeps its way", "For people on foot nothing would be cut off.", "For delivery cart nothing would be cut off.")
        page.check(f"everyone is chosen: {page.chosen()}", page.chosen() == ["Everyone"] and page.buttons() == ["Close for everyone …"])
        page.choose_whom("Wheelchairs", "Delivery cart")
        page.check("what it means is computed for those alone", "people on foot" not in page.text("meaning") and "For delivery cart nothing would be cut off." in page.text("meaning"))
        page.check(f"the button says for whom: {page.buttons()}", page.buttons() == ["Close for wheelchairs and delivery cart …"])
        page.choose_whom("Everyone")
        page.choose_whom("Wheelchairs")
        page.check(f"one alone: {page.buttons()}", page.buttons() == ["Close for wheelchairs …"] and "Without steps every place keeps its way" in page.text("meaning") and "For " not in page.text("meaning"))
        page.picture("staff-some")
        page.click("act")
        page.check(f"the last tap says for whom: {page.buttons()}", page.buttons() == ["Close now for wheelchairs", "Don't"])
        page.picture("staff-some-sure")
        site.sent()
        page.sure()
        page.says("told", f"{title} is closed for wheelchairs, as of version")
        page.check("it was sent once", site.sent() == [{"feature": RIDE, "closed": True, "profiles": ["wheelchair"]}])
        chair.says("answer", "120 m", "Checked: no shorter way without steps")
        version = json.loads(ask(site.server, "/v1/version")[1])["version"]
        walker.nudge()
        walker.until("who walks has an answer of this version", lambda: f"Version {version}," in walker.script("return document.querySelector('#answer details').textContent"))
        walker.check("and isn't led round", all(text in walker.text("answer") for text in ("60 m", "Take the lift up to level 1", "Checked: no shorter way")))
        page.says("closures", f"{title}\nfor wheelchairs\nOpen", "Stairs, level 0 to 1\nfor people on foot\nOpen")
        page.says("history", f"Closed: {title} for wheelchairs. From this page.")
        page.check(f"it can be opened for the same: {page.buttons()}", page.text("stands") == "Closed for wheelchairs" and page.buttons() == ["Open for wheelchairs …"])
        page.picture("staff-some-closed")
        page.choose_whom("Everyone")
        page.check(f"for everyone it can be closed and opened: {page.buttons()}", page.buttons() == ["Close for everyone …", "Open for everyone …"])
        page.check("what closing it means is computed for the others alone", "steps" not in page.text("meaning") and "For people on foot nothing would be cut off." in page.text("meaning"))
        page.picture("staff-either")
        page.click("act")
        page.sure()
        page.says("told", f"{title} is closed for everyone, as of version")
        page.check("for everyone nobody is named", site.sent() == [{"feature": RIDE, "closed": True}])
        page.says("history", f"Closed: {title} for people on foot and delivery cart. From this page.")
        page.says("closures", f"{title}\nfor everyone")
        walker.nudge()
        walker.until("who walks is led round now", lambda: "lift" not in walker.text("answer") and "Checked: no shorter way" in walker.text("answer"))
        page.choose_whom("People on foot", "Delivery cart")
        page.check(f"closed for all, it can only be opened: {page.buttons()}", page.buttons() == ["Open for people on foot and delivery cart …"])
        page.click("act")
        page.sure()
        page.says("told", f"{title} is open for people on foot and delivery cart, as of version")
        page.says("history", f"Opened, or gone by a publication: {title} for people on foot and delivery cart. From this page.")
        page.check(f"the rest stands: {page.text('stands')}", page.text("stands") == "Closed for wheelchairs" and site.closures() == {STAIRS: ["walk"], RIDE: ["wheelchair"]})
        walker.says("answer", "60 m", "Take the lift up to level 1")
        page.choose_whom("People on foot", "Wheelchairs")
        page.click("other")
        page.says("meaning", "No place would get a step-free way by it.")
        page.check(f"the other button asks too: {page.buttons()}", page.buttons() == ["Open now for people on foot and wheelchairs", "Don't"])
        site.sent()
        page.sure()
        page.says("told", f"{title} is open for people on foot and wheelchairs, as of version")
        page.check("it was sent once", site.sent() == [{"feature": RIDE, "closed": False, "profiles": ["walk", "wheelchair"]}] and site.closures() == {STAIRS: ["walk"]})
        chair.says("answer", "60 m", "Checked: no shorter way without steps")
    page.push("#closures button")
    page.says("picked", "Stairs, level 0 to 1")
    page.until("the list opens it for the same", lambda: page.chosen() == ["People on foot"] and page.buttons() == ["Open now for people on foot", "Don't"])
    page.sure()
    page.says("closures", "Nothing is closed.")
    stands_so(page)
    page.reset()


def stands_so(page):
    """What another one did just before is told as standing so already; a choice that can't be made any more turns into the other one."""
    def after_another(path, passes):
        page.site.close(RIDE, profiles=["walk", "wheelchair"])
        return passes()

    page.site.between.post = after_another
    page.change_lift("Wheelchairs")
    page.says("told", "Lift, level 0 to 1 was closed for wheelchairs already, at version")
    page.says("stands", "Closed for people on foot and wheelchairs")
    page.site.between.post = None
    page.choose_whom("People on foot")
    page.click("act")
    page.check(f"it is to be opened: {page.buttons()}", page.buttons() == ["Open now for people on foot", "Don't"])
    page.another(RIDE, False, ["walk"])
    page.until("another one has opened it", lambda: page.buttons() == ["Close for people on foot …"])


def is_closed_by_keyboard(page):
    """The key, a search, a choice, the change and a publication, by keyboard alone."""
    page.open(key=None)
    tab_to(page, "key")
    page.press(KEY, Keys.ENTER)
    page.says("key-told", "The key is right.")
    page.check("the search has the focus", page.focused() == "what")
    page.press("bakery", Keys.ENTER)
    page.until("the room is chosen", lambda: "Bakery" in page.text("picked"))
    page.says("meaning", "Bakery would have no step-free way to and from the entrances.", "For people on foot Bakery would be cut off.")
    tab_to(page, "choice")
    page.press(Keys.ARROW_DOWN)
    page.until("its door is chosen", lambda: "Door: walkway" in page.text("picked"))
    page.says("meaning", "Not proved.")
    tab_to(page, "act")
    page.press(Keys.ENTER)
    page.check("the focus is on what follows", page.focused() == "sure")
    time.sleep(0.7)
    page.press(Keys.ENTER)
    page.says("told", "is closed for everyone, as of version")
    page.check("it was sent once", page.site.sent() == [{"feature": ID.format(105), "closed": True}])
    page.until("the focus stays at the card", lambda: page.focused() == "act")
    tab_to(page, "Open")
    page.press(Keys.ENTER)
    page.until("the list's button leads to the card", lambda: page.focused() == "sure")
    time.sleep(0.7)
    page.press(Keys.ENTER)
    page.says("told", "is open for everyone")
    page.site.sent()
    tab_to(page, "Wheelchairs")
    page.press(Keys.SPACE)
    page.until("wheelchairs are chosen alone", lambda: page.chosen() == ["Wheelchairs"])
    page.says("meaning", "Not proved.")
    page.check("the focus stays at the choice", page.focused() == "Wheelchairs")
    tab_to(page, "act")
    page.press(Keys.ENTER)
    time.sleep(0.7)
    page.press(Keys.ENTER)
    page.says("told", "is closed for wheelchairs, as of version")
    page.check("it was sent once, for wheelchairs", page.site.sent() == [{"feature": ID.format(105), "closed": True, "profiles": ["wheelchair"]}])
    tab_to(page, "Everyone")
    page.press(Keys.SPACE)
    page.until("everyone is chosen", lambda: page.chosen() == ["Everyone"])
    page.says("meaning", "Not proved.")
    tab_to(page, "other")
    page.press(Keys.ENTER)
    page.until("the other button leads to the last one", lambda: page.focused() == "sure" and page.text("sure").startswith("Open now for everyone"))
    time.sleep(0.7)
    page.press(Keys.ENTER)
    page.says("told", "is open for everyone")
    tab_to(page, "folder")
    page.press("tall")
    tab_to(page, "publish-act")
    page.press(Keys.ENTER)
    time.sleep(0.7)
    page.press(Keys.ENTER)
    page.says("publish-told", "tall is rejected")
    page.says("findings", "K1: Each vertex of a unit lies on its level.", "unit.geojson, feature 7")
    page.reset()


def tab_to(page, name):
    for _ in range(60):
        page.press(Keys.TAB)
        if page.focused() == name:
            break
    page.check(f"the tabulator leads to {name}", page.focused() == name)


def publishes(page):
    """What is published, what that drops, and what is found wrong, each with its rule, its place on the map and its page."""
    page.open()
    page.site.close(LIFT)
    page.site.close(STAIRS)
    page.says("closures", "Lift, level 0", "Stairs, level 0 to 1")
    page.site.between.post = lambda path, passes: time.sleep(2) or passes()
    page.publish("tall")
    page.says("publish-told", "tall is being judged; until then version")
    page.until("it shows that it goes on", lambda: page.driver.find_element(By.ID, "judging").is_displayed() and re.search(r"[1-9] s", page.text("elapsed")))
    page.check("its button tells that it is sent", page.text("publish-sure") == "Sent …")
    page.picture("staff-judging")
    page.says("publish-told", "tall is rejected: it breaks the rules below. Nothing was changed.")
    page.says("findings", "1 finding", "K1: Each vertex of a unit lies on its level.", "unit.geojson, feature 7", "What to do about K1")
    page.check("what was chosen stays", page.value("folder") == "tall")
    page.until("the picture is there", lambda: page.script("return document.querySelector('#findings img').naturalWidth") == 1000)
    page.push("#findings li button")
    page.until("the place is shown enlarged", lambda: "K1 unit.geojson 7 0" in page.script("return document.querySelector('#findings img').alt"))
    middle = page.script("const i = document.querySelector('#findings img').getBoundingClientRect(), l = document.querySelector('.lens').getBoundingClientRect(), z = i.width / 1000; return [(l.left + l.width / 2 - i.left) / z, (l.top + l.height / 2 - i.top) / z]")
    page.check(f"the ring is in the middle: {middle}", abs(middle[0] - 614.2) < 3 and abs(middle[1] - 94) < 3)
    page.picture("staff-findings")
    link = page.driver.find_element(By.CSS_SELECTOR, "#findings a").get_attribute("href")
    status, text = ask(page.site.port, urllib.parse.urlsplit(link).path)
    page.check("the rule's page has it", status == 200 and link.endswith("#K1") and b'<h2 id="K1">' in text and b"Each vertex of a unit lies on its level." in text)
    page.site.between.post = None
    page.site.sent()
    page.publish("nolift")
    page.says("publish-told", "nolift is published, as version")
    page.says("findings", "No longer closed, since the new folder doesn't have it: Lift, level 0.")
    page.says("trouble", "The server's venue isn't that of this map: a folder was published.")
    page.check("it was sent once", page.site.sent() == [{"folder": "nolift"}])
    page.tap("Ramp")
    page.says("meaning", "What it would mean can't be computed: the server's venue isn't that of this map.")
    page.site.venue = "nolift"
    page.site.write(page.site.address)
    page.until("the new map comes by itself", lambda: page.script("return import('./store.js').then(({ site }) => site.mark)") == page.site.about["mark"], 15)
    page.until("and nothing is told of it any more", lambda: not page.text("trouble"))
    page.check("the key is kept", page.driver.find_element(By.ID, "key-forget").is_displayed())
    page.until("what was chosen stays", lambda: page.text("picked") == "Ramp, level 0 to 1")
    page.says("meaning", "Tickets and Platform would have no step-free way")
    page.site.venue = "station"
    page.site.post("/v1/publish", {"folder": "station"})
    page.says("history", "A folder was published.")
    page.site.write(page.site.address)
    page.until("the old map comes back", lambda: page.script("return import('./store.js').then(({ site }) => site.mark)") == page.site.about["mark"] and not page.text("trouble"), 15)
    page.reset()


def is_refused(page):
    """Each refusal has its sentence, and what was chosen stays; 500 findings of 30,000 are told without a stop."""
    refusals = [
        ((404, b'{"error":"no_such_profile"}'), "Nothing was changed. The server doesn't know one of these profiles"),
        ((404, b'{"error":"no_such_feature"}'), "Nothing was changed. The server's venue doesn't have this any more"),
        ((409, b'{"error":"history_full"}'), "Nothing was changed. The server's history is full (last_version)."),
        ((502, b'{"error":"journal_fault"}'), "Nothing was changed. The server couldn't keep it. Tell the operator."),
        ((503, b'{"error":"want_of_memory"}'), "Nothing was changed. The server is short of memory. Send it again."),
        ((400, b'{"error":"bad_body"}'), "Nothing was changed. The server can't read what this page sends."),
        ((403, b"<html>"), "From this network nothing may be changed, and nothing was."),
        ((429, b"<html>"), "Too much was sent from here, so this wasn't passed on."),
        ((413, b"<html>"), "The server refuses to answer, with status 413."),
        ((502, b"<html>"), "No reply came. At version"),
        ((503, b"<html>"), "No reply came. At version"),
        ((504, b"<html>"), "No reply came. At version"),
        ((200, b"[]"), "No reply came. At version"),
    ]
    page.open()
    page.choose("Lift")
    page.click("act")
    time.sleep(0.7)
    for reply, sentence in refusals:
        page.site.between.post = lambda path, passes: reply
        page.click("sure")
        page.says("told", sentence)
        page.until(f"{sentence}: what was chosen stays, to be sent again", lambda: page.text("sure") == "Close now for everyone" and page.text("picked") == "Lift, level 0 to 1")
    page.check("each was sent once", len(page.site.sent()) == len(refusals))
    page.site.between.post = lambda path, passes: (403, b'{"error":"not_staff"}')
    page.click("sure")
    page.says("told", "The server doesn't know this key.")
    page.until("the key is asked for anew", lambda: page.focused() == "key")
    page.picture("staff-refused")
    page.site.between.post = None
    page.type_key(KEY)
    page.says("key-told", "The key is right.")
    page.click("sure")
    page.says("told", "is closed for everyone, as of version")
    page.site.between.post = lambda path, passes: (502, b'{"error":"folder_fault"}')
    page.publish("station")
    page.says("publish-told", "Nothing was changed. A file of the folder couldn't be read.")
    found = [{"file": "unit.geojson", "index": k, "member": 0, "rule": "K1" if k % 2 else "G3"} for k in range(500)]
    page.site.between.post = lambda path, passes: (422, json.dumps({"error": "rejected", "findings": found, "total": 30_000}).encode())
    page.sure("publish-sure")
    page.says("findings", "30,000 findings", "The first 500 of them:", "K1: Each vertex", "230 more")
    page.check("all 500 are there", page.count("#findings li") == 500)
    page.check("nothing runs over the side", page.script("return document.documentElement.scrollWidth <= innerWidth"))
    page.picture("staff-many")
    page.reset()


def loses_replies(page):
    """Of a change whose reply is lost the page tells what stands, and sends nothing again; a late reply is waited for."""
    page.open()
    page.site.sent()
    page.site.between.post = lambda path, passes: passes() and None
    page.change_lift()
    page.says("told", "No reply came. It stands all the same. At version", "Lift, level 0 to 1 is closed for everyone.")
    page.check("it was sent once", page.site.sent() == [{"feature": RIDE, "closed": True}])
    page.picture("staff-lost")
    page.site.between.post = lambda path, passes: None
    page.click("act")
    page.sure()
    page.says("told", "No reply came. At version", "is closed for everyone. If it is still to be done, send it again.")
    page.check("it was sent once again", page.site.sent() == [{"feature": RIDE, "closed": False}])
    page.site.between.post = lambda path, passes: time.sleep(11) or passes()
    page.click("sure")
    page.says("told", "No reply yet. It isn't sent again; the reply is waited for.", seconds=8)
    page.check("its button tells that it is sent", page.text("sure") == "Sent …")
    page.picture("staff-slow")
    page.click("sure")
    page.says("told", "is open for everyone, as of version", seconds=20)
    page.check("it was sent once, however often it was tapped", page.site.sent() == [{"feature": RIDE, "closed": False}])
    loses_replies_for_some(page)
    silent = []

    def vanish(path, passes):
        passes()
        silent.append(path)
        page.site.between.change = lambda path, body: None

    page.site.between.post = vanish
    page.change_lift()
    page.says("told", "No reply came. It isn't sent again: the server is asked what stands")
    page.says("trouble", "The server doesn't answer.")
    page.check("nothing further is sent meanwhile", page.text("sure") == "Sent …")
    page.site.between.change = page.site.between.post = None
    page.says("told", "No reply came. It stands all the same.", seconds=8)
    page.until("the server is heard again", lambda: not page.text("trouble"))
    page.site.between.post = lambda path, passes: passes() and None
    page.publish("station")
    page.says("publish-told", "No reply came. Version", "the history tells what changed")
    page.site.between.post = lambda path, passes: None
    page.publish("station")
    page.says("publish-told", "No reply came. Version", "stands as before.")
    page.reset()


def loses_replies_for_some(page):
    """It tells what stands for whom, also where another one closed it for others meanwhile."""
    page.site.between.post = lambda path, passes: passes() and None
    page.change_lift("Wheelchairs")
    page.says("told", "No reply came. It stands all the same. At version", "Lift, level 0 to 1 is closed for wheelchairs.")
    page.check("it was sent once", page.site.sent() == [{"feature": RIDE, "closed": True, "profiles": ["wheelchair"]}])
    page.site.between.post = lambda path, passes: None
    page.click("act")
    page.sure()
    page.says("told", "No reply came. At version", "Lift, level 0 to 1 is closed for wheelchairs. If it is still to be done, send it again.")
    page.until("it is to be sent again for the same", lambda: page.buttons() == ["Open now for wheelchairs", "Don't"])
    page.check("it was sent once for the same", page.site.sent() == [{"feature": RIDE, "closed": False, "profiles": ["wheelchair"]}])
    page.site.between.post = lambda path, passes: page.site.close(RIDE, profiles=["walk"])
    page.click("sure")
    page.says("told", "Lift, level 0 to 1 is closed for people on foot and wheelchairs. If it is still to be done, send it again.")
    page.site.between.post = lambda path, passes: passes() and None
    page.click("sure")
    page.says("told", "It stands all the same. At version", "Lift, level 0 to 1 is closed for people on foot.")
    page.site.between.post = None
    page.another(RIDE, False)
    page.says("stands", "Open")
    page.site.sent()


def has_no_network(page):
    """Without a network nothing is sent and nothing that was typed is lost."""
    page.open()
    page.choose("Lift")
    page.click("act")
    page.site.sent()
    network = lambda off: page.tell("Network.emulateNetworkConditions", offline=off, latency=0, downloadThroughput=-1, uploadThroughput=-1)
    network(True)
    page.says("trouble", "This device has no network.")
    page.sure()
    page.says("told", "There is no network, so nothing was sent.")
    page.picture("staff-offline")
    network(False)
    page.until("the network is back", lambda: not page.text("trouble"))
    page.check("nothing was sent, and what was chosen stays", page.site.sent() == [] and page.text("picked") == "Lift, level 0 to 1")
    page.click("sure")
    page.says("told", "is closed for everyone, as of version")
    page.reset()


def tells_versions(page):
    """What others change goes by, and a server that begins anew is told with what was closed before."""
    page.open()
    page.says("history", "The page was opened, with 0 closed.")
    page.another(LIFT)
    page.says("history", "Closed: Lift, level 0.")
    page.another(RAMP)
    page.says("history", "Closed: Ramp, level 0 to 1.")
    page.another(LIFT, False, ["wheelchair"])
    page.says("history", "Opened, or gone by a publication: Lift, level 0 for wheelchairs.")
    page.another(LIFT, False)
    page.says("history", "Opened, or gone by a publication: Lift, level 0 for people on foot and delivery cart.")
    page.another(LIFT, profiles=["wheelchair", "walk"])
    page.says("history", "Closed: Lift, level 0 for people on foot and wheelchairs.")
    page.another(LIFT, profiles=["delivery_cart"])
    page.says("history", "Closed: Lift, level 0 for delivery cart.")
    page.says("closures", "Lift, level 0\nfor everyone")
    page.another(LIFT, False, ["delivery_cart"])
    page.says("closures", "Lift, level 0\nfor people on foot and wheelchairs")
    with held(page):
        page.site.close(LIFT)
        page.site.close(LIFT, False)
        page.site.close(LIFT, profiles=["wheelchair"])
        page.site.close(STAIRS)
    page.says("history", "More may have changed in between.")
    page.site.post("/v1/publish", {"folder": "station"})
    page.says("history", "A folder was published.")
    page.site.begin_anew()
    page.says("history", "The server began anew.", seconds=20)
    page.says("closures", "Nothing is closed.")
    page.says("gone", "Lift, level 0 was closed for wheelchairs before the server began anew, and isn't now.", "Ramp, level 0 to 1 was closed for everyone before", "Stairs")
    page.picture("staff-anew")
    page.another(LIFT, profiles=["walk"])
    page.says("closures", "Lift, level 0\nfor people on foot")
    page.check("closed for others it is told all the same", page.count("#gone li") == 3)
    page.site.sent()
    again = {"Lift, level 0": {"feature": LIFT, "closed": True, "profiles": ["wheelchair"]}, "Ramp, level 0 to 1": {"feature": RAMP, "closed": True}}
    for title, body in again.items():
        count = page.count("#gone li")
        page.push(f"#gone [aria-label='Close {title} again']")
        page.says("meaning", "Not proved.")
        page.check(f"{title} is chosen for the same: {page.chosen()}", page.chosen() == (["Wheelchairs"] if "profiles" in body else ["Everyone"]))
        page.sure()
        page.says("told", f"{title} is closed for {'wheelchairs' if 'profiles' in body else 'everyone'}, as of version")
        page.check(f"{title} is closed again for the same", page.site.sent() == [body])
        page.until("what is closed again is gone from the list", lambda: page.count("#gone li") == count - 1)
    page.check("nobody else is let in or kept out", page.site.closures() == {LIFT: ["walk", "wheelchair"], RAMP: None})
    page.push("#gone li button:last-child")
    page.until("what stays open is gone too", lambda: not page.driver.find_element(By.ID, "gone").is_displayed())
    page.reset()


@contextlib.contextmanager
def held(page):
    """The page asks nothing for a while."""
    page.script("window.kept = fetch; window.fetch = () => new Promise(() => null)")
    time.sleep(0.3)
    yield
    page.script("window.fetch = window.kept; document.dispatchEvent(new Event('visibilitychange'))")
    time.sleep(0.1)


def is_told_apart(page):
    """For whom something is closed, as the page's rows, words and comparisons have it, beside sets of profiles."""
    page.open()
    everyone, some = ["walk", "wheelchair", "delivery_cart"], [["walk"], ["wheelchair", "delivery_cart"], ["walk", "wheelchair", "delivery_cart"]]
    cases = [(these, those) for these in [None, "*", *some] for those in ["*", *some]]
    rows = [LIFT, {"feature": RAMP, "profiles": ["walk"]}]
    found = page.driver.execute_async_script("""const [cases, rows, done] = arguments; import('./staff/whom.js').then((whom) => done([[...whom.closedBy(rows)],
        cases.map(([these, those]) => [whom.isSo(these ?? undefined, true, those), whom.isSo(these ?? undefined, false, those), whom.less(those, these ?? undefined)])]), String);""", cases, rows)
    page.check(f"both forms of rows: {found[0]}", found[0] == [[LIFT, "*"], [RAMP, ["walk"]]])
    beyond = "a profile that the page doesn't know"  # So closed for all is more than closed for those that it knows.
    set_of = lambda its: set() if its is None else {*everyone, beyond} if its == "*" else set(its)
    for (these, those), (closed, opened, rest) in zip(cases, found[1]):
        one, other = set_of(these), set_of(those)
        page.check(f"{these} {those}: {closed} {opened}", closed == (other <= one) and opened == (not other & one))
        left = [it for it in everyone if it in other - one]
        page.check(f"{those} less {these}: {rest}", rest == ("*" if other - one in (set_of("*"), {beyond}) else left))
    wrong = page.driver.execute_async_script("const done = arguments[0]; import('./staff/whom.js').then(({ closedBy }) => { try { done(closedBy([{ feature: 'x' }])); } catch (wrong) { done('refused'); } });")
    page.check(f"a row of another form is none: {wrong}", wrong == "refused")
    return [f"{len(cases)} sets of profiles told apart alike"]


def is_computed_alike(page):
    """Which places a closing cuts off, as the page's worker says, beside what the printed tables say."""
    page.open()
    told = json.loads(read(os.path.join(page.site.files, "folders", "folders.json")))
    features = [ID.format(it) for it in (21, 22, 23, 24, 101, 105, 108, 110, 203, 300, 301, 304, 305, 400, 404)]
    cases = [(profile, closed, feature, closes) for profile in ("wheelchair", "walk") for closed in ([], [RIDE], [RIDE, RAMP], [ID.format(k) for k in range(107, 112)])
             for feature in features for closes in ([True] if feature not in closed else [False])]
    rows = [{"number": k, "data": f"http://127.0.0.1:{page.site.port}/data/{told['mark']}/", "profile": profile, "entrances": told["entrances"], "before": closed, "after": list(set(closed) ^ {feature}), "feature": feature}
            for k, (profile, closed, feature, closes) in enumerate(cases)]
    found = page.driver.execute_async_script("""const [rows, done] = arguments, worker = new Worker('staff/reach.js', { type: 'module' }), found = [];
        worker.onmessage = ({ data }) => { found[data.number] = data; if (found.filter(Boolean).length === rows.length) done(found); };
        for (const row of rows) worker.postMessage(row);""", rows)
    tables = {profile: web_page.links_of(subprocess.run([page.site.program, "links", page.site.base, "station", profile], capture_output=True, text=True).stdout) for profile in ("wheelchair", "walk")}
    cut = 0
    for (profile, closed, feature, closes), one in zip(cases, found):
        after = set(closed) | {feature} if closes else set(closed) - {feature}
        was, now = (joined(tables[profile], told["entrances"], its) for its in (set(closed), after))
        lost, gained = ({node for node in it if node != feature} for it in (was - now, now - was))
        cut += bool(lost)
        page.check(f"{profile} {closed} {feature}: {one}", set(one["lost"]) == lost and set(one["gained"]) == gained)
    page.check("some closings cut places off", cut > 10)
    return [f"{len(cases)} closings and openings computed alike, {cut} of which cut places off"]


def joined(links, entrances, closed):
    """The nodes from which and to which open links lead, to and from entrances that are open."""
    is_open = [(a, b) for a, b, _, via in links if not closed & {a, b, via}]
    found = []
    for pairs in (is_open, [(b, a) for a, b in is_open]):
        seen, last = set(entrances) - closed, -1
        while len(seen) != last:
            last = len(seen)
            seen |= {b for a, b in pairs if a in seen}
        found.append(seen)
    return found[0] & found[1]


def is_withheld(page):
    """Who isn't in the staff's network gets no page of staff and changes nothing; without folders.json and tables the page says what it can't tell."""
    site = page.site
    conf = read(os.path.join(site.files, "nginx.conf"))
    page.check("only the staff's network is let in", conf.count("allow 127.0.0.1/32; deny all;") == 5)
    words = [sys.executable, os.path.join(WEB, "site.py"), site.base, "station", os.path.join(site.files, "other")]
    for more, told in ((["8080", "127.0.0.1:7070"], 0), (["8080", "127.0.0.1:7070", "10.0.0.0/8,192.168.7.1"], 0), (["8080", "127.0.0.1:7070", "10.0.0.1/8"], 1), (["8080", "127.0.0.1:7070", "all;"], 1)):
        ran = subprocess.run(words + more, capture_output=True, text=True, env=os.environ | {"VENUE": site.program})
        page.check(f"site.py with {more}: {ran.stderr}", ran.returncode == told and ("nothing is written" in ran.stderr) == bool(told))
        rules = re.findall("{ ((?:allow [^;]*; )*deny all;)", read(os.path.join(site.files, "other", "nginx.conf")) or "")
        page.check(f"its rules: {rules}", told or set(rules) == {"allow 10.0.0.0/8; allow 192.168.7.1/32; deny all;" if more[2:] else "deny all;"})
    with site.broken("nginx.conf", "allow 127.0.0.1/32; deny all;", "deny all;"):
        path = os.path.join(site.files, "nginx.conf")
        text = read(path).replace("allow 127.0.0.1/32; deny all;", "deny all;")
        with open(path, "w", encoding="utf-8") as file:
            file.write(text)
        site.stop(1)
        site.start_nginx()
        for path in ("/staff.html", "/staff/page.js", "/folders/folders.json"):
            page.check(f"{path} is withheld", ask(site.port, path)[0] == 403)
        page.check("a visitor's page is there", ask(site.port, "/")[0] == 200)
        for path, body in (("/v1/closures", {"feature": LIFT, "closed": True}), ("/v1/publish", {"folder": "station"})):
            page.check(f"a change at {path} is refused", ask(site.port, path, body)[0] == 403)
        page.check("and questions are answered", ask(site.port, "/v1/closures")[0] == 200 and site.sent() == [])
    site.stop(1)
    site.start_nginx()
    with site.broken("folders"):
        page.open()
        page.says("publish-told", "The operator named no folders for this page")
        page.tap("Lift")
        page.says("meaning", "What it would mean can't be computed: nobody told this page which doors are entrances.")
        page.click("act")
        page.check("it can be closed all the same", page.text("sure") == "Close now for everyone")
    with site.broken(os.path.join(site.data, "links", "wheelchair", "0.txt")):
        page.open()
        page.tap("Lift")
        page.says("meaning", "What it would mean can't be computed: the tables of links can't be read.")
    with site.broken(os.path.join("folders", "tall.svg")):
        page.open()
        page.publish("tall")
        page.says("findings", "No map of tall lies beside this page.", "K1: Each vertex")
    page.reset()


def speaks_german(page):
    page.speak("de-CH")
    page.open(key=None)
    page.type_key("wrong-key-1")
    page.says("key-told", "Der Server kennt dieses Schlüsselwort nicht.")
    page.type_key(KEY)
    page.says("key-told", "Das Schlüsselwort ist richtig.")
    page.until("the lift is chosen", lambda: "Aufzug, Ebene 0 bis 1" in page.text("picked") or page.tap("Aufzug"))
    page.says("meaning", "Jeder Ort behält seinen stufenfreien Weg", "Nicht bewiesen.")
    page.check("nothing is left in English", not re.search(r"\b(the|way|level|Level|Close|Open|lift|to|Staff|Publish)\b", page.driver.find_element(By.TAG_NAME, "main").text))
    page.picture("staff-german")
    page.driver.find_element(By.CSS_SELECTOR, "#language select").send_keys("EN")
    page.says("meaning", "Without steps every place keeps its way")
    page.check("the key is kept in another language", page.text("key-told") == "The key is right.")
    page.script("localStorage.clear()")
    page.speak("en-GB")


def has_all_sentences(page):
    """Each sentence of the page is there in both languages, and said; what is typed and what the page weighs."""
    page.open()
    names = re.findall('"([a-z_]+)"', re.search(r"NAMES = new Set\(\[(.*?)\]", read(os.path.join(WEB, "staff", "change.js")))[1])
    built = {f"why.{name}" for name in names if name not in ("not_staff", "rejected")}
    built |= {f"{kind}.{profile}{end}" for kind in ("lost", "gained") for profile in ("wheelchair", "other") for end in ("", ".none")} | {"who.walk", "who.wheelchair"}
    texts = {name: read(os.path.join(WEB, name)) for folder in ("", "staff") for name in sorted(os.path.join(folder, it) for it in os.listdir(os.path.join(WEB, folder)))
             if name.endswith((".js", ".html")) and name not in ("en.js", "de.js", "staff/words.js")}
    # Several sentences that are told one after the other stand in one text.
    built |= {"unchanged"} | {key for line in texts["staff/page.js"].splitlines() if "tell(" in line or "change(" in line for keys in re.findall('"([a-z_.]+(?: [a-z_.]+)+)"', line) for key in keys.split()}
    web_page.compare_sentences(page, texts, web_page.tables_of(page), built)
    own = sum(os.path.getsize(os.path.join(WEB, "staff", name)) for name in os.listdir(os.path.join(WEB, "staff"))) + os.path.getsize(os.path.join(WEB, "staff.html"))
    page.choose("Lift")
    sizes = page.script("return [...performance.getEntriesByType('navigation'), ...performance.getEntriesByType('resource')].filter(({ name }) => !/\\/(v1|data|folders)\\/|site\\.json/.test(name)).map(({ name, encodedBodySize }) => [name.split('#')[0], encodedBodySize])")
    sent = sum(dict(sorted(sizes, key=lambda it: it[1])).values())
    page.check(f"the page's own files have {own} bytes, and all that it loads {sent} as nginx sends them", own <= MOST_BYTES and 20_000 < sent <= MOST_BYTES)
    return [f"the page's own files {own} bytes, all that it loads {sent} as sent"]


def is_read(page):
    """Every control has a name, every text has contrast, nothing covers anything, at all widths and in all looks."""
    page.site.close(RAMP)
    contrast = """const parse = (text) => { const [r, g, b, a = 1] = text.match(/[\\d.]+/g).map(Number); return [r, g, b, a]; };
        const light = ([r, g, b]) => [r, g, b].map((c) => c / 255).map((c) => (c <= 0.04045 ? c / 12.92 : ((c + 0.055) / 1.055) ** 2.4)).reduce((sum, c, k) => sum + c * [0.2126, 0.7152, 0.0722][k], 0);
        const under = (it) => { for (; it; it = it.parentElement) { const c = parse(getComputedStyle(it).backgroundColor); if (c[3] === 1) return c; } return parse(getComputedStyle(document.documentElement).backgroundColor); };
        const wrong = [], walker = document.createTreeWalker(document.body, NodeFilter.SHOW_TEXT);
        let count = 0;
        while (walker.nextNode()) {
          const it = walker.currentNode.parentElement, style = getComputedStyle(it);
          if (!walker.currentNode.textContent.trim() || !it.getClientRects().length || style.visibility === 'hidden' || it.closest('script,noscript,:disabled,canvas')) continue;
          const [one, other] = [light(parse(style.color)), light(under(it))].sort((a, b) => b - a), ratio = (one + 0.05) / (other + 0.05), isLarge = parseFloat(style.fontSize) >= 24;
          count += 1;
          if (ratio < (isLarge ? 3 : 4.5)) wrong.push([it.id || it.className || it.localName, walker.currentNode.textContent.trim().slice(0, 30), ratio.toFixed(2)]);
        }
        return [count, wrong];"""
    for look in ({}, {"prefers_color_scheme": "dark"}, {"forced_colors": "active"}):
        page.look(**look)
        page.open()
        page.choose("Lift", "Tickets and Platform would have no step-free way")
        page.publish("tall")
        page.says("findings", "K1: Each vertex")
        if "forced_colors" not in look:
            count, wrong = page.script(contrast)
            page.check(f"contrast with {look} of {count} texts: {wrong}", count > 25 and not wrong)
            page.click("act")
            count, wrong = page.script(contrast)
            page.check(f"contrast before it is sent: {wrong}", not wrong)
        page.picture("staff-" + ("-".join(look.values()) or "light"))
        named = [(node["role"]["value"], node.get("name", {}).get("value")) for node in page.tell("Accessibility.getFullAXTree")["nodes"] if not node.get("ignored") and "role" in node]
        controls = [(role, name) for role, name in named if role in ("button", "textbox", "combobox", "listbox", "link", "progressbar", "image", "img", "form", "group", "region", "checkbox", "search")]
        page.check(f"each control has a name: {[it for it in controls if not it[1]]}", len(controls) > 15 and all(name for _, name in controls))
        choices = [name for role, name in controls if role == "checkbox"]
        page.check(f"the choice for whom is a group with a name: {choices}", ("group", "For whom") in controls and choices == ["Everyone", "People on foot", "Wheelchairs", "Delivery cart"])
    page.look()
    for width, height in ((1440, 900), (720, 450), (390, 844), (320, 640), (320, 225)):
        page.resize(width, height)
        time.sleep(0.2)
        page.check(f"at {width} x {height} nothing runs over the side", page.script("return document.documentElement.scrollWidth <= innerWidth"))
        found = sum(boxes(page, "#view", "#levels", "#zoom", "#card", "#form"), [])
        page.check(f"at {width} x {height} nothing covers anything {found}", apart(found) and len(found) == 5)
        small = page.script("return [...document.querySelectorAll('button, input, select')].filter((e) => e.getClientRects().length).map((e) => [e.id || e.textContent, e.getBoundingClientRect().height]).filter(([id, high]) => high < 32)")
        page.check(f"at {width} x {height} all can be hit: {small}", not small)
        page.picture(f"staff-{width}-{height}")
    page.resize(*SIZES[page.name])
    page.reset()


def is_kept_secret(page):
    """No request goes to another origin, and the key stands in no address, body, log, storage or part of the page."""
    page.driver.get_log("performance")
    page.open()
    page.change_lift()
    page.says("told", "is closed for everyone, as of version")
    page.publish("tall")
    page.says("findings", "K1")
    requests = [json.loads(row["message"])["message"] for row in page.driver.get_log("performance")]
    asked = [it["params"]["request"] for it in requests if it["method"] == "Network.requestWillBeSent"]
    origin = f"http://127.0.0.1:{page.site.port}/"
    page.check(f"{len(asked)} requests to one origin", len(asked) > 20 and all(it["url"].startswith((origin, "about:", "data:")) for it in asked))
    holding = [it for it in asked if KEY in json.dumps(it)]
    page.check("the key goes with changes alone, as a field", {it["method"] for it in holding} == {"POST"} and all(KEY not in it["url"] + it.get("postData", "") for it in asked))
    stores = """const done = arguments[0]; (async () => {
        const kept = [JSON.stringify(Object.entries(localStorage)), JSON.stringify(Object.entries(sessionStorage)), document.cookie, location.href, JSON.stringify(history.state), window.name, document.documentElement.outerHTML];
        kept.push(...[...document.querySelectorAll('input')].map((it) => it.value), JSON.stringify(await indexedDB.databases()));
        for (const name of await caches.keys()) { const store = await caches.open(name); for (const it of await store.keys()) kept.push(it.url, JSON.stringify([...it.headers]), await (await store.match(it)).text()); }
        return kept; })().then(done, (wrong) => done([String(wrong)]));"""
    kept = page.driver.execute_async_script(stores)
    page.check(f"{len(kept)} things that are kept have no key", len(kept) > 8 and not any(KEY in it for it in kept))
    urls = page.driver.execute_async_script("const done = arguments[0]; caches.open('kept').then((it) => it.keys()).then((all) => done(all.map(({ url }) => url)))")
    page.check(f"nothing of the staff's page is kept: {urls}", not any(re.search("/staff|/folders/", it) for it in urls))
    for name in os.listdir(page.site.files):
        if name.endswith((".log", ".conf", ".json")):
            page.check(f"{name} has no key", KEY not in (read(os.path.join(page.site.files, name)) or ""))
    page.driver.get(f"{origin}staff.html")
    page.until("a page that is opened again asks for the key", lambda: page.driver.find_element(By.ID, "key").is_displayed() and page.value("key") == "")
    page.reset()


# What is looked at with a phone and at a desk, what says most first.
PATHS = [closes_in_three_taps, closes_for_some, is_closed_by_keyboard, publishes, is_keyed, loses_replies, is_read, is_refused, tells_versions, has_no_network]
LOOKS = {"phone": PATHS, "desk": [is_kept_secret, is_computed_alike, is_told_apart, has_all_sentences, *PATHS, is_withheld, speaks_german]}

if __name__ == "__main__":
    sys.exit(web_page.take_looks("staff_page", sys.argv[1:], LOOKS, StaffPage, StaffSite, LONGEST))
