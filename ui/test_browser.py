#!/usr/bin/env python3
"""Tests the screen in a real browser: K1 to K12 of document 01 and a whole signing, through the controls of the page as a person would,
and what the page says then.

The library is target/library/libnewelsage.so, or the one that NEWELSAGE_LIBRARY names, the explaining program
checker/target/release/checker, or the one that NEWELSAGE_CHECKER names. Screenshots go into target/screenshots. The last line is
'N passed, M failed'. With names of tests, such as Cases.test_k2, just these are run.
"""

import contextlib
import json
import os
import re
import subprocess
import sys
import tempfile
import threading
import unittest
from pathlib import Path

sys.dont_write_bytecode = True
TOP = Path(__file__).resolve().parent.parent
sys.path.insert(0, str(TOP / "bindings" / "python"))
import newelsage
import webdriver
from newelsage import Tag
from test_newelsage import DENY, LIBRARY, PERMIT, ROLE, SAMPLE, A, Counting, directive
from webdriver import DOWN, ENTER, ESCAPE, LEFT, RIGHT, SHIFT, TAB, UP

CHECKER = Path(os.environ.get("NEWELSAGE_CHECKER", TOP / "checker" / "target" / "release" / "checker"))
REPLAY = TOP / "target" / "programs" / "replay"
SCREENSHOTS = TOP / "target" / "screenshots"

LAPTOP = (1440, 900)
TABLET = (1024, 768)
PHONE = (390, 844)
WIDTHS = (1440, 1024, 768, 390, 320)

# Names for the sample register: the persons' usual roles too.
LABELS = TOP / "samples" / "visit.labels.json"
NAMES = json.loads(LABELS.read_text("utf-8"))

OPEN = ("Open", "by default")
CLOSED = ("Closed", "by default")
BY_A = ("Closed", "directive 1")

# What the form has for directive A.
FORM_A = {"number": 1, "effect": DENY, "who": "Doctors", "record": "Record file", "reach": "All inside"}

CARD_WITH_A = SAMPLE + bytes.fromhex("040019") + A


class Server:
    """The screen's server, as a program."""

    def __init__(self, card, port=0):
        command = [sys.executable, "-B", TOP / "ui" / "server.py", "--port", str(port)]
        command += ["--library", LIBRARY, "--checker", CHECKER, "--", card]
        self.process = subprocess.Popen(command, stdout=subprocess.PIPE, text=True)
        timer = threading.Timer(webdriver.SECONDS, self.process.kill)
        timer.start()
        line = self.process.stdout.readline()
        timer.cancel()
        if not line.startswith("screen: http"):
            self.stop()
            raise RuntimeError("the server does not start")
        self.address = line.removeprefix("screen: ").strip()
        self.port = int(self.address.rstrip("/").rpartition(":")[2])

    def stop(self):
        self.process.terminate()
        self.process.wait()
        self.process.stdout.close()

    def __enter__(self):
        return self

    def __exit__(self, *_):
        self.stop()


# What all tests share: a folder for files, the browser, and the server with the sample card.
work = browser = server = None


def setUpModule():
    global work, browser, server
    shared = contextlib.ExitStack()
    unittest.addModuleCleanup(shared.close)
    work = Path(shared.enter_context(tempfile.TemporaryDirectory(ignore_cleanup_errors=True)))
    card = file_with("sample.card", SAMPLE)
    file_with("sample.labels.json", LABELS.read_bytes())
    SCREENSHOTS.mkdir(parents=True, exist_ok=True)
    browser = shared.enter_context(webdriver.Browser(work))
    server = shared.enter_context(Server(card))


def file_with(name, data):
    path = work / name
    path.write_bytes(data)
    return path


class OnThePage(unittest.TestCase):
    """What a person does and sees. Every test begins with the card as it was opened, and has to leave the console empty."""

    maxDiff = None

    def setUp(self):
        browser.resize(*LAPTOP)
        self.open(server)

    def tearDown(self):
        self.assertEqual(browser.log(), [])

    def open(self, from_server):
        browser.open(from_server.address)
        self.ready("access")

    # waiting

    def ready(self, view=None):
        """Waits for the answer to what was done last."""
        browser.wait(f"an answer on the page {view or ''}", lambda: self.is_ready(view))

    def is_ready(self, view):
        ready, shown, busy = browser.script(
            "const { ready, view } = document.body.dataset;"
            "return [ready === 'true', view, document.getElementById('main').getAttribute('aria-busy') === 'true']"
        )
        if shown == "error" and not busy:
            self.fail(f"the page shows an error: {self.text('#error-words')}")
        return ready and view in (None, shown)

    def is_busy(self):
        return browser.find("#main").attribute("aria-busy") == "true"

    # doing

    def click(self, selector):
        element = browser.find(selector)
        browser.script("arguments[0].scrollIntoView({ block: 'center' })", element)
        element.click()

    def tick(self, name):
        """Clicks on the label of a box or a choice, which may be drawn over it."""
        self.click(f"label:has(#{name})")

    def is_ticked(self, name):
        return browser.script("return document.getElementById(arguments[0]).checked", name)

    def fill(self, name, number):
        browser.find(f"#{name}").overtype(str(number))

    def choose(self, name, words):
        """Chooses an entry of a list by its words."""
        entry = browser.script(
            "return [...document.getElementById(arguments[0]).options].find(one => one.textContent.trim() === arguments[1])",
            name,
            words,
        )
        self.assertIsNotNone(entry, f"{name} has no entry {words}")
        entry.click()

    def go(self, tab):
        self.click(f"#tab-{tab}")
        self.ready(tab)

    def ask(self, place, reason):
        self.choose("ask-o", place)
        self.choose("ask-p", reason)
        self.ready("access")

    @contextlib.contextmanager
    def pop_up(self, name):
        self.click(f"#{name}")
        yield
        self.ready()
        browser.keys(ESCAPE)

    def show_person(self, number, role):
        """Shows a person, in a role; one whom the page does not know is added by number."""
        with self.pop_up("people-open"):
            if not browser.has(f"#show-p{number}"):
                self.fill("add-person", number)
                self.click("#add-go")
                self.ready()
            if not self.is_ticked(f"show-p{number}"):
                self.tick(f"show-p{number}")
            self.choose(f"role-p{number}", role)

    def move_clock(self, minute):
        with self.pop_up("clock-open"):
            self.fill("clock-minute", minute)
            self.click("#clock-go")

    def write(self, number, effect, who, record, reach, start=1000, until=2000):
        """Fills in the form of a draft."""
        self.click("#write")
        self.ready("write")
        self.fill("d-number", number)
        self.tick(f"d-effect-{effect}")
        self.choose("d-who", who)
        self.choose("d-rec", record)
        self.choose("d-reach", reach)
        self.fill("d-from-minute", start)
        self.fill("d-until-minute", until)
        self.ready("write")

    def sign(self):
        """Signs a draft that is accepted."""
        number = self.value("d-number")
        self.click("#sign")
        self.ready("directives")
        self.assertIn(f"Directive {number} is signed", self.text("#notice"))

    def sign_a(self):
        self.write(**FORM_A)
        self.sign()
        self.go("access")

    def revoke(self, number):
        self.click(f"#revoke-{number}")
        self.ready("directives")
        self.assertIn(f"Directive {number} is revoked", self.text("#notice"))

    def choose_file(self, name, path):
        with self.pop_up("open-open"):
            browser.find(f"#{name}").type(str(path))

    def open_card(self, name, data, unsaved=False):
        """Opens another card; where there are unsaved steps, the page asks first."""
        self.choose_file("card-file", file_with(name, data))
        if unsaved:
            self.wait_for("#ask-first", f"Open {name} without saving?")
            self.click("#open-anyway")
        self.wait_for("#foot-card", name)
        self.ready()

    def open_names(self, names):
        self.choose_file("names-file", file_with("other.labels.json", json.dumps(names).encode()))
        self.wait_for("#say", "The names are in use")
        self.ready()

    # seeing

    def texts(self, selector):
        """The words of each such element that is shown, with one blank between."""
        found = browser.script(
            "return [...document.querySelectorAll(arguments[0])].filter(one => one.checkVisibility()).map(one => one.innerText)",
            selector,
        )
        return [" ".join(words.split()) for words in found]

    def text(self, selector):
        """The words of the one such element that is shown."""
        found = self.texts(selector)
        self.assertEqual(len(found), 1, selector)
        return found[0]

    def wait_for(self, selector, words):
        browser.wait(f"{selector} with {words}", lambda: any(words in found for found in self.texts(selector)))

    def value(self, name):
        return browser.script("return document.getElementById(arguments[0]).value", name)

    def table(self):
        """The words of every cell that is seen: what changes, the answer, its reason."""
        cells = browser.script(
            """const words = (cell, part) => cell.querySelector(part)?.innerText.trim() ?? '';
            return [...document.querySelectorAll('#access .cell')].filter(cell => cell.checkVisibility()).map(cell => ({
              column: cell.dataset.c, record: Number(cell.dataset.r),
              was: cell.querySelector('.was') ? [...cell.querySelector('.was').childNodes].find(one => one.nodeType === 3).data : '',
              answer: words(cell, '.ans'), why: words(cell, '.why'),
            }))"""
        )
        return {(cell["column"], cell["record"]): (cell["was"], cell["answer"], cell["why"]) for cell in cells}

    def says(self, column, record):
        """The answer and its reason in a cell that does not change."""
        was, answer, why = self.table()[column, record]
        self.assertEqual(was, "")
        return answer, why

    def reason(self, column, record):
        """The words of the reason that a click on the cell shows."""
        self.click(f'.cell[data-c="{column}"][data-r="{record}"]')
        return self.text("#reason .why-text")

    def refusal(self):
        """The question, the heading and all words of the refusal of a draft."""
        question = int(browser.find("#refusal").attribute("data-question"))
        words = self.text("#refusal")
        self.assertIn(f"question {question}", words.lower())
        return question, self.text("#refusal-h"), words

    def history(self):
        return self.texts("#history li")

    def no_answer_is_shown(self):
        self.assertFalse(browser.has("#access"))
        self.assertFalse(browser.has(".cell, .ans, [data-effect]"))

    def resize(self, width, height):
        """Makes the page this large, and waits until it has noticed."""
        browser.resize(width, height)
        browser.script("return new Promise(done => requestAnimationFrame(() => requestAnimationFrame(done)))")
        browser.wait("an answer", lambda: not self.is_busy())

    def check_widths(self, state):
        """Nothing scrolls sideways."""
        for width in WIDTHS:
            self.resize(width, 900)
            widths = browser.script(
                "const { clientWidth, scrollWidth } = document.documentElement;"
                "scrollTo(500, 0); return [clientWidth, Math.max(scrollWidth, document.body.scrollWidth), scrollX]"
            )
            self.assertEqual(widths, [width, width, 0], f"{state} at {width}")
        self.resize(*LAPTOP)

    def screenshot(self, name, size=LAPTOP):
        self.resize(*size)
        browser.script("scrollTo(0, 0)")
        browser.point_at(0, 0)
        browser.screenshot(SCREENSHOTS / f"{name}-{size[0]}x{size[1]}.png")
        self.resize(*LAPTOP)

    def screenshots(self, name):
        """On a laptop, a phone, and a tablet, where one group of requesters has its place."""
        self.screenshot(name)
        self.screenshot(name, PHONE)
        self.tick("show-roles")
        self.screenshot(name, TABLET)
        self.tick("show-all")
        self.ready()


class Cases(OnThePage):
    """K1 to K12, the answers as document 01 has them. Q is person 600 as a doctor, asking from City Hospital, which is place 1, for
    treatment: that is how the page opens the sample register."""

    def test_k1(self):
        self.assertEqual(self.text("#access th[data-c='p600']"), "Dr Sam Okafor as a doctor")
        self.assertEqual(self.text("#access caption b:first-of-type"), "City Hospital")
        self.assertEqual(self.says("p600", 1), OPEN)
        self.ask("City Hospital", "Research")
        self.assertEqual(self.says("p600", 1), CLOSED)
        self.assertIn("open for treatment only", self.reason("p600", 1))

    def test_k2(self):
        self.sign_a()
        self.assertEqual(self.says("p600", 1), BY_A)
        self.assertEqual(self.says("r1", 1), BY_A)
        self.assertEqual(self.says("r3", 1), OPEN)
        reason = self.reason("p600", 1)
        self.assertIn("Closed by directive 1: doctors, including cardiologists, may not read anything inside “Record file”", reason)
        self.assertIn("until 9:20am tomorrow, Tue 17 Nov", reason)
        self.show_person(600, "Nurse")
        self.assertEqual(self.says("p600", 1), OPEN)

    def test_k2_of_a_card_with_a(self):
        self.open_card("with-a.card", CARD_WITH_A)
        self.assertEqual(self.says("r1", 1), BY_A)
        self.assertEqual(self.says("r3", 1), OPEN)
        self.show_person(600, "Role 1")
        self.assertEqual(self.says("p600", 1), BY_A)
        self.show_person(600, "Role 3")
        self.assertEqual(self.says("p600", 1), OPEN)

    def test_k3(self):
        self.sign_a()
        self.show_person(501, "Doctor")
        self.assertEqual(self.says("p501", 1), ("Open", "wrote it"))
        self.assertIn("Dr Amara Cole, who wrote it", self.reason("p501", 1))
        self.show_person(7, "Doctor")
        self.assertEqual(self.says("p7", 1), ("Open", "patient"))
        self.assertIn("you can always read your own records", self.reason("p7", 1))

    def test_k4(self):
        self.sign_a()
        self.ask("Harbour Practice", "Treatment")
        self.assertEqual(self.says("p600", 0), OPEN)
        self.assertEqual(self.says("p600", 1), BY_A)

    def test_a_record_and_all_inside(self):
        self.ask("Harbour Practice", "Treatment")
        self.write(**{**FORM_A, "reach": "Itself and all inside"})
        self.assertIn("may not read “Record file” or anything inside it", self.text("#inwords"))
        self.assertEqual(self.table()["p600", 0], ("Open", "Closed", "your draft"))
        self.sign()
        self.go("access")
        self.assertEqual([self.says("p600", record) for record in range(3)], [BY_A] * 3)
        self.write(**{**FORM_A, "number": 2})
        for reach in ("Only itself", "Directly inside", "All inside", "Itself and all inside"):
            self.choose("d-reach", reach)
            self.ready("write")
            question, title, words = self.refusal()
            self.assertEqual((question, title), (14, "You do not need this directive"))
            self.assertIn("Already covered by directive 1.", words)
        self.go("access")
        self.write(2, PERMIT, "Dr Sam Okafor", "Record file", "Only itself", 1500, 2500)
        question, title, _ = self.refusal()
        self.assertEqual((question, title), (13, "This clashes with directive 1"))

    def test_limits_of_a_record_and_all_inside(self):
        self.write(2, PERMIT, "Nurses", "Record file", "Itself and all inside")
        self.click("#limits-box > summary")
        for mark in (1, 2, 3):
            self.tick(f"d-ps-{mark}")
        self.ready("write")
        self.assertIn("“Record file” and everything inside it, each if it is marked only General", self.text("#inwords"))

    def test_k5(self):
        self.sign_a()
        self.write(2, PERMIT, "Dr Sam Okafor", "Discharge letter", "Only itself", 1500, 2500)
        question, title, words = self.refusal()
        self.assertEqual((question, title), (13, "This clashes with directive 1"))
        example = re.fullmatch(
            "Dr Sam Okafor, as (.*), asks from (.*) to read “Discharge letter” for (.*), at (.*)[.]", self.text("#example")
        )
        self.assertIsNotNone(example, self.text("#example"))
        self.assertIn(example[1], ("a doctor", "a cardiologist"))
        self.assertIn(example[2], [*NAMES["origins"].values(), *(f"place {i}" for i in range(4, 16))])
        self.assertIn(example[3], NAMES["purposes"].values())
        self.assertEqual(example[4], "1:00am tomorrow, Tue 17 Nov")
        self.assertIn("Directive 1 says no", words)
        self.assertIn("Your draft says yes", words)
        self.screenshot("refused")
        self.pen_is_refused()
        self.fill("d-from-minute", 2000)
        self.ready("write")
        self.assertFalse(browser.has("#refusal"))
        self.assertIn("Nothing changes yet", self.text("#summary"))
        self.sign()
        self.assertEqual(self.texts("#directives .dnum"), ["Directive 1", "Directive 2"])

    def pen_is_refused(self):
        """The pen makes no call of a refused draft; the refusal gets the focus and is an alert."""
        self.click("#sign")
        self.assertEqual(browser.script("return document.activeElement.id"), "refusal-h")
        self.assertEqual(browser.find("#refusal").attribute("role"), "alert")
        self.go("directives")
        self.assertEqual(len(self.history()), 2)
        self.click("#write")
        self.ready("write")

    def test_k5_by_the_way_on(self):
        self.sign_a()
        self.write(2, PERMIT, "Dr Sam Okafor", "Discharge letter", "Only itself", 1500, 2500)
        self.assertEqual(self.text("#way-0"), "Start when directive 1 ends")
        self.click("#way-0")
        self.ready("write")
        self.assertEqual(self.value("d-from-minute"), "2000")
        self.sign()

    def test_k6(self):
        self.sign_a()
        self.write(2, DENY, "Cardiologists", "Discharge letter", "Directly inside")
        question, title, words = self.refusal()
        self.assertEqual((question, title), (14, "You do not need this directive"))
        self.assertIn("Already covered by directive 1.", words)

    def test_k7(self):
        self.write(**FORM_A, until=1500)
        self.sign()
        self.write(**{**FORM_A, "number": 2}, start=1500)
        self.sign()
        self.write(**{**FORM_A, "number": 3}, start=1200, until=1800)
        question, title, words = self.refusal()
        self.assertEqual((question, title), (14, "You do not need this directive"))
        self.assertIn("Already covered by directives 1 and 2. Together they say the same", words)

    def test_k8(self):
        self.write(2, DENY, "Nurse Joel Bright", "Discharge letter", "Directly inside")
        question, title, _ = self.refusal()
        self.assertEqual((question, title), (12, "Nurse Joel Bright wrote “HIV test”"))
        self.choose("d-reach", "Only itself")
        self.ready("write")
        self.assertEqual(self.table()["p502", 1], ("Open", "Closed", "your draft"))
        self.sign()
        self.go("access")
        self.show_person(502, "Nurse")
        self.assertEqual(self.says("p502", 1), ("Closed", "directive 2"))
        self.assertEqual(self.says("p502", 2), ("Open", "wrote it"))

    def test_k9(self):
        self.ask("City Hospital", "Research")
        self.write(2, PERMIT, "Nurses", "Record file", "All inside")
        self.click("#limits-box > summary")
        for mark in (1, 2, 3):
            self.tick(f"d-ps-{mark}")
        self.ready("write")
        self.assertIn("if it is marked only General", self.text("#inwords"))
        self.assertEqual(self.table()["r3", 1], ("Closed", "Open", "your draft"))
        self.assertEqual(self.says("r3", 2), CLOSED)
        self.sign()
        self.go("access")
        self.assertEqual([self.says("r3", record) for record in range(3)], [CLOSED, ("Open", "directive 2"), CLOSED])
        self.assertEqual(self.says("r1", 1), CLOSED)

    def give_token(self, number, length):
        """A token for person 600, whose heart has stopped."""
        self.go("urgent")
        self.choose("t-who", "Dr Sam Okafor")
        self.tick("t-state-0")
        self.fill("t-len", length)
        self.fill("t-number", number)
        self.click("#t-issue")
        self.ready("urgent")

    def test_k10(self):
        self.go("urgent")
        self.assertIn("Nobody has emergency access now", self.text("#live"))
        self.give_token(9, 30)
        self.assertIn("Dr Sam Okafor", self.text("[data-token='9']"))
        self.assertIn("Cardiac arrest", self.text("[data-token='9']"))
        self.assertIn("Can read 1 record of 3", self.text("[data-token='9']"))
        self.assertEqual(self.texts("[data-token='9'] .disc .rname"), ["Discharge letter"])
        self.assertIn("marked “heart”", self.text("[data-token='9'] .disc"))
        self.assertEqual(self.text("[data-token='9'] .left"), "30 minutes left")
        self.move_clock(1029)
        self.assertEqual(self.text("[data-token='9'] .left"), "1 minute left")
        self.assertEqual(self.texts("[data-token='9'] .disc .rname"), ["Discharge letter"])
        self.assertFalse(browser.has("#ended"))
        self.move_clock(1030)
        self.assertFalse(browser.has("[data-token]"))
        self.assertEqual(self.text("#ended"), "Emergency access has ended 1 emergency access ended when the clock moved.")
        self.assertIn("Nobody has emergency access now", self.text("#live"))
        self.go("directives")
        self.assertIn("0 directives and 1 emergency access ended.", self.history()[-1])

    def test_k10_past_a_directive(self):
        self.sign_a()
        self.give_token(9, 30)
        self.assertIn("In an emergency it is shown all the same", self.text("[data-token='9'] .disc"))
        self.screenshot("emergency")
        self.go("access")
        self.assertIn("Dr Sam Okafor has emergency access until 5:10pm today", self.text("#tokens-line"))
        self.assertEqual(self.says("p600", 1), BY_A)

    def test_token_of_no_state_is_refused(self):
        self.go("urgent")
        self.click("#t-issue")
        self.ready("urgent")
        self.assertIn("Choose what is happening. (Question 18)", self.text("#tok-err"))
        self.assertFalse(browser.has("[data-token]"))

    def test_k11(self):
        self.sign_a()
        self.move_clock(2000)
        self.assertEqual(self.says("p600", 1), OPEN)
        self.go("directives")
        self.assertFalse(browser.has("#directives"))
        self.assertIn("1 directive and 0 emergency accesses ended.", self.history()[-1])
        self.write(**FORM_A, start=2000, until=3000)
        self.sign()
        self.assertEqual(self.texts("#directives .dnum"), ["Directive 1"])

    def test_k12(self):
        self.write(2, PERMIT, "Nurses", "HIV test", "Directly inside")
        question, title, words = self.refusal()
        self.assertEqual((question, title), (14, "This directive would not apply to anything"))
        self.assertIn("“HIV test” has nothing inside it.", words)


# Who stands behind a column of the table: the person and the role. A role's column is a person of whom the card knows nothing.
NOBODY = 1
COLUMNS = {
    "r0": (NOBODY, 0),
    "r1": (NOBODY, 1),
    "r2": (NOBODY, 2),
    "r3": (NOBODY, 3),
    "p501": (501, 1),
    "p502": (502, 3),
    "p600": (600, 1),
}
CITY_HOSPITAL = 1
TREATMENT = 0


def decide_value(column, record):
    person, role = COLUMNS[column]
    return person.to_bytes(2, "big") + role.to_bytes(2, "big") + bytes([CITY_HOSPITAL, record, TREATMENT])


def reason_words(basis, number=None):
    return {1: "patient", 2: "wrote it", 3: f"directive {number}", 4: "by default"}[basis]


def answer_words(effect, *rest):
    """The words of a cell for the values of a decision."""
    return ("", "Open" if effect == PERMIT else "Closed", reason_words(*rest))


class Signing(OnThePage):
    """A draft, its marked cells, the pen, what is saved, and undo: compared with the library itself and with the replay programs."""

    def setUp(self):
        super().setUp()
        self.ledger = newelsage.Ledger(newelsage.Library(LIBRARY))
        self.assertTrue(self.ledger.read(SAMPLE).accepted)

    def decided(self, ledger):
        """The cells of the table as the library decides them."""
        return {
            (column, record): ledger.ask(Tag.DECIDE, decide_value(column, record)).values
            for column in COLUMNS
            for record in range(3)
        }

    def worded(self, ledger):
        return {cell: answer_words(*values) for cell, values in self.decided(ledger).items()}

    def signed(self):
        """The ledger after A."""
        after = self.ledger.copy()
        self.assertTrue(after.commit(A).accepted)
        return after

    def previewed(self, draft_number):
        """The cells that the page has to show for draft A: those that change with both answers."""
        before, after = self.decided(self.ledger), self.decided(self.signed())
        cells = {}
        for cell, (effect, *rest) in after.items():
            _, answer, why = answer_words(effect, *rest)
            was = answer_words(*before[cell])[1] if before[cell][0] != effect else ""
            cells[cell] = (was, answer, "your draft" if rest == [3, draft_number] else why)
        return cells

    def test_the_table_is_the_librarys(self):
        self.assertEqual(self.table(), self.worded(self.ledger))
        self.sign_a()
        self.assertEqual(self.table(), self.worded(self.signed()))

    def test_a_draft_marks_what_changes(self):
        self.write(**FORM_A)
        table = self.table()
        self.assertEqual(table, self.previewed(1))
        changes = {cell for cell, (was, _, _) in table.items() if was}
        self.assertEqual(changes, {("r1", 1), ("r1", 2), ("r2", 1), ("r2", 2), ("p501", 2), ("p600", 1), ("p600", 2)})
        self.assertEqual(len(browser.all("#access .cell.changes")), len(changes))
        heads = [re.findall("[0-9]+ changes?", words) for words in self.texts("#access th.c-who")]
        self.assertEqual(heads, [[], ["2 changes"], ["2 changes"], [], ["1 change"], [], ["2 changes"]])
        self.assertEqual(self.text("#summary .sum-head"), "2 records change for doctors")
        self.assertEqual(self.text("#sign-count"), "2 records change for doctors")
        self.assertIn("They could no longer read “Discharge letter” or “HIV test”.", self.text("#summary"))
        self.click('.cell[data-c="r1"][data-r="2"]')
        reason = self.text("#reason")
        self.assertIn("Open by default: no directive applies, City Hospital holds this record", reason)
        self.assertIn("Closed by your draft: doctors, including cardiologists,", reason)
        self.screenshots("draft")

    def test_signing_saving_and_undo(self):
        before = self.table()
        self.write(**FORM_A)
        self.sign()
        self.assertEqual(self.texts("#directives .dnum"), ["Directive 1"])
        self.go("access")
        signed = self.table()
        self.assertEqual(signed, self.worded(self.signed()))
        self.click('.cell[data-c="r1"][data-r="1"]')
        self.screenshots("open")
        self.go("directives")
        self.assertEqual(self.saved("#save-card", "sample.card"), self.signed().write().data)
        self.replay_answers(self.saved("#save-replay", "sample.replay"), ["0 3 0", "0"], signed)
        self.click("#undo")
        self.ready("directives")
        self.assertEqual(len(self.history()), 1)
        self.assertEqual(self.saved("#save-card", "sample.card"), self.ledger.write().data)
        self.go("access")
        self.assertEqual(self.table(), before)

    def test_a_visit_of_every_call(self):
        self.sign_a()
        self.write(2, DENY, "Nurse Joel Bright", "Discharge letter", "Only itself")
        self.sign()
        self.revoke(1)
        self.move_clock(1010)
        self.go("urgent")
        self.tick("t-state-0")
        self.choose("t-who", "Dr Sam Okafor")
        self.click("#t-issue")
        self.ready("urgent")
        self.move_clock(1005)
        self.assertIn("Time only moves forward. (Question 16)", self.text("#note"))
        self.go("access")
        table = self.table()
        self.go("directives")
        self.assertEqual(
            self.texts("#history .ht"),
            [
                "Opened the card minute 1000",
                "Signed directive 1 minute 1000",
                "Signed directive 2 minute 1000",
                "Revoked directive 1 minute 1000",
                "Moved the clock to 4:50pm today minute 1000",
                "Gave Dr Sam Okafor emergency access minute 1010",
                "Clock not moved minute 1010",
            ],
        )
        replay = self.saved("#save-replay", "sample.replay")
        self.replay_answers(replay, ["0 3 0", "0", "0", "0", "0 0 0", "0", "16"], table)
        written = self.answers_of([CHECKER, "replay"], replay + bytes.fromhex("160002ffff"))[-1]
        self.assertEqual(written.split()[-1], self.saved("#save-card", "sample.card").hex())

    def test_what_has_no_preview_yet_is_not_signed(self):
        self.write(**FORM_A)
        words = browser.script(
            """const minute = document.getElementById('d-until-minute');
            minute.value = '1500';
            minute.dispatchEvent(new Event('input'));
            document.getElementById('sign').click();
            return document.getElementById('sign-wait').innerText"""
        )
        self.assertEqual(words, "The draft is still being looked at. Wait for the preview, then sign.")
        self.ready("write")
        self.assertIn("until 1:00am tomorrow, Tue 17 Nov", self.text("#inwords"))
        self.sign()
        self.assertEqual(len(self.history()), 2)
        self.assertIn("Minutes 1000 to 1500", self.text("#directives .dir"))

    def saved(self, button, name):
        """The bytes of the file that a click on the button downloads."""
        path = browser.downloads / name
        path.unlink(missing_ok=True)
        self.click(button)
        return browser.wait(f"the file {name}", lambda: path.exists() and path.read_bytes())

    def replay_answers(self, replay, lines, table):
        """The replay has these answers, and decisions after it are those of the table."""
        self.assertEqual({column for column, _ in table}, set(COLUMNS))
        for cell in table:
            replay += bytes([Tag.DECIDE]) + b"\x00\x07" + decide_value(*cell)
        programs = [[CHECKER, "replay"], *([[REPLAY]] if REPLAY.exists() else [])]
        for program in programs:
            answers = self.answers_of(program, replay)
            self.assertEqual(answers[: len(lines)], lines)
            decisions = [tuple(map(int, line.split())) for line in answers[len(lines) :]]
            self.assertEqual([status for status, *_ in decisions], [0] * len(table))
            self.assertEqual([answer_words(*values) for _, *values in decisions], list(table.values()))

    @staticmethod
    def answers_of(program, replay):
        return subprocess.run(program, input=replay, capture_output=True, check=True).stdout.decode("ascii").splitlines()


# Record 2 stands at byte 43, after head, roles and two records; its parent, after tag and length, is one that there is not.
DAMAGED = SAMPLE[:46] + b"\x05" + SAMPLE[47:]


class Files(OnThePage):
    """Cards and names that are opened through the page."""

    def test_a_damaged_card(self):
        self.open_card("damaged.card", DAMAGED)
        self.assertEqual(self.text("h1"), "This card cannot be opened")
        self.assertEqual(browser.find("#fault").attribute("data-question"), "4")
        fault = self.text("#fault")
        self.assertIn("Question 4. Do the edition, the roles and each record keep to their allowed values?", fault)
        self.assertIn("Field 5, a record (tag 0x03)", fault)
        self.assertIn("Starts at byte 43 and is 13 bytes long. The wrong value is at byte 46.", fault)
        self.assertEqual(self.texts("#bytes mark"), ["wrong value 05"])
        self.assertEqual(self.texts(".qs .no .qnum"), ["4"])
        self.no_answer_is_shown()
        self.screenshot("badcard")
        browser.find("#bad-open").type(str(file_with("good.card", SAMPLE)))
        self.ready("access")
        self.assertEqual(self.says("r1", 1), OPEN)

    def test_a_card_that_is_cut_short(self):
        self.open_card("short.card", SAMPLE[:50])
        self.assertEqual(browser.find("#fault").attribute("data-question"), "1")
        self.assertIn("Starts at byte 43, and only 7 bytes of it are there.", self.text("#fault"))
        self.no_answer_is_shown()

    def test_an_empty_card(self):
        self.open_card("empty.card", b"")
        self.assertEqual(browser.find("#fault").attribute("data-question"), "5")
        self.no_answer_is_shown()

    def test_a_card_whose_directives_clash(self):
        clash = directive(2, PERMIT, ROLE, 2, record=2, reach=0)
        self.open_card("clash.card", CARD_WITH_A + bytes.fromhex("040019") + clash)
        self.assertEqual(browser.find("#fault").attribute("data-question"), "13")
        self.assertIn("Field 7, a directive (tag 0x04)", self.text("#fault"))
        self.no_answer_is_shown()

    def test_steps_that_are_not_saved(self):
        self.sign_a()
        self.choose_file("card-file", file_with("nameless.card", SAMPLE))
        self.wait_for("#ask-first", "What you did in this visit (1 step) is not saved")
        self.assertEqual(browser.script("return document.activeElement.id"), "ask-first-h")
        self.click("#open-stay")
        self.assertEqual(self.texts("#ask-first"), [])
        self.assertIn("sample.card", self.text("#foot-card"))
        self.assertEqual(self.says("r1", 1), BY_A)
        self.open_card("nameless.card", SAMPLE, unsaved=True)
        self.assertEqual(self.says("r1", 1), OPEN)
        self.assertEqual(self.texts("#ask-first"), [])

    def test_a_file_that_is_too_large(self):
        self.choose_file("card-file", file_with("large.card", bytes(65536)))
        self.wait_for("#note", "large.card is too large to be a card")
        self.assertIn("sample.card", self.text("#foot-card"))
        self.assertEqual(self.says("r1", 1), OPEN)

    def test_a_card_without_names(self):
        self.open_card("nameless.card", SAMPLE)
        heads = " ".join(self.texts("#access thead th"))
        for words in ("Role 1", "Role 3", "Person 501"):
            self.assertIn(words, heads)
        self.assertEqual(self.texts("#access .rname"), ["Record 0", "Record 1", "Record 2"])
        self.assertIn("Minute 1000", self.text("#facts"))
        self.assertEqual(self.says("r1", 1), OPEN)

    def test_names_with_html_are_text(self):
        image, script = '<img src=x onerror="hit=1">', "<script>hit=1</script>"
        names = {part: {number: image for number in entries} for part, entries in NAMES.items() if part != "minuteZero"}
        names["records"] = {"0": script, "1": image, "2": script}
        names["persons"] = {"7": {"name": script}, "600": {"name": image, "role": 1}}
        names["roles"] = {number: {"one": image, "many": image, "head": image} for number in "0123"}
        self.open_names(names)
        self.assertEqual(self.texts("#access .rname"), [script, image, script])
        self.assertEqual(self.texts("#access th[data-c='r1'] .who"), [image])
        self.assertEqual(self.texts("#access th[data-c='p600'] .who"), [image])
        self.assertIn(script, self.text("#facts"))
        self.click('.cell[data-c="p600"][data-r="1"]')
        self.click("#write")
        self.ready("write")
        self.sign()
        self.go("urgent")
        self.tick("t-state-0")
        self.click("#t-issue")
        self.ready("urgent")
        self.assertIn(image, self.text("#live"))
        self.assertEqual(browser.script("return [typeof hit, document.querySelectorAll('img, body script').length]"), ["undefined", 0])

    def test_a_names_file_that_is_none(self):
        self.choose_file("names-file", file_with("other.labels.json", b"{"))
        self.wait_for("#note", "not a names file")
        self.assertEqual(self.texts("#access .rname"), ["Record file", "Discharge letter", "HIV test"])

    def test_a_large_card(self):
        self.open_card("demo.card", (TOP / "samples" / "demo.card").read_bytes())
        self.assertEqual(len(self.texts("#access tbody tr")), 12)
        twist = browser.all(".twist")[0]
        twist.click()
        self.assertEqual(browser.all(".twist")[0].attribute("aria-expanded"), "false")
        folded = len(self.texts("#access tbody tr"))
        self.assertLess(folded, 12)
        browser.all(".twist")[0].click()
        self.assertEqual(len(self.texts("#access tbody tr")), 12)


class Failures(OnThePage):
    """What is no answer never looks like one."""

    def test_a_server_that_is_stopped(self):
        with Server(work / "sample.card") as first:
            self.open(first)
            self.sign_a()
        self.choose("ask-p", "Research")
        self.error_is_shown()
        self.check_widths("error")
        self.click("#retry")
        self.error_is_shown()
        for message in browser.log():
            self.assertIn("ERR_CONNECTION_REFUSED", message)
        with Server(work / "sample.card", first.port):
            self.click("#retry")
            self.ready("access")
            self.assertIn("research", self.text("#access caption"))
            self.choose("ask-p", "Treatment")
            self.ready("access")
            self.assertEqual(self.says("r1", 1), BY_A)

    def error_is_shown(self):
        browser.wait("the error", lambda: not self.is_busy())
        self.assertIn("The gateway did not answer", self.text("#gateway-error"))
        self.assertEqual(self.text("#error-words"), "The gateway cannot be reached. It may have been stopped.")
        self.assertEqual(self.texts("#tabs-nav"), [])
        self.no_answer_is_shown()

    def test_a_requester_that_is_refused(self):
        browser.script(
            """const real = window.fetch;
            window.fetch = (address, options) => {
              const body = JSON.parse(options.body);
              body.columns.filter(column => column.person === 600).forEach(column => { column.role = 9; });
              return real(address, { ...options, body: JSON.stringify(body) });
            };"""
        )
        self.ask("City Hospital", "Research")
        self.ask("City Hospital", "Treatment")
        self.assertEqual(self.says("p600", 1), ("No answer", "question 17"))
        self.assertEqual(self.says("r1", 1), OPEN)
        self.click('.cell[data-c="p600"][data-r="1"]')
        self.assertFalse(browser.has("#reason"))
        self.write(**FORM_A)
        self.assertEqual(self.says("p600", 1), ("No answer", "question 17"))
        self.assertEqual(self.table()["r1", 1], ("Open", "Closed", "your draft"))
        self.sign()

    def test_the_console_shows_what_the_policy_stops(self):
        browser.script("const added = document.createElement('script'); added.textContent = 'hit = 1'; document.body.append(added)")
        self.assertEqual(browser.script("return typeof hit"), "undefined")
        self.assertIn("Content Security Policy", browser.log()[0])


class Waiting(OnThePage):
    """What is done while an answer is awaited."""

    def delay_answers(self, milliseconds):
        """From now on answers come so much later."""
        browser.script(
            """window.promptly ??= window.fetch;
            window.fetch = async (...asked) => {
              await new Promise(done => setTimeout(done, arguments[0]));
              return window.promptly(...asked);
            };""",
            milliseconds,
        )

    def click_twice(self, name):
        browser.script("const button = document.getElementById(arguments[0]); button.click(); button.click()", name)

    def resize_twice(self):
        """Makes the page narrow and wide again, which paints it anew; the answer is still awaited."""
        for size in (TABLET, PHONE, LAPTOP):
            browser.resize(*size)
            browser.script("return new Promise(done => requestAnimationFrame(() => requestAnimationFrame(done)))")

    def test_a_second_click_makes_no_second_call(self):
        self.sign_a()
        self.go("directives")
        self.delay_answers(300)
        for name, steps in (("revoke-1", 3), ("undo", 2)):
            self.click_twice(name)
            self.ready("directives")
            self.assertEqual(len(self.history()), steps)
        self.go("urgent")
        self.tick("t-state-0")
        self.ready("urgent")
        self.click_twice("t-issue")
        self.ready("urgent")
        self.assertEqual(len(browser.all("[data-token]")), 1)
        self.click_twice("one-minute")
        self.ready("urgent")
        self.assertEqual(self.text(".token .left"), "29 minutes left")

    def repainted(self, name, view):
        """Clicks on a button, whose answer comes late, and has the page painted anew meanwhile."""
        self.delay_answers(800)
        self.click(f"#{name}")
        self.resize_twice()
        self.ready(view)
        self.delay_answers(0)

    def test_the_page_is_painted_anew(self):
        self.write(**FORM_A)
        self.repainted("sign", "directives")
        self.assertEqual(len(self.history()), 2)
        self.go("urgent")
        self.repainted("t-issue", "urgent")
        self.assertIn("(Question 18)", self.text("#tok-err"))
        self.go("access")
        self.click("#write")
        self.ready("write")
        self.repainted("discard", "access")

    # How much is seen of what is shown, and whether the words over it are.
    LOOKS = """
    const main = document.getElementById('main');
    return [getComputedStyle(main.firstElementChild).opacity, getComputedStyle(main, '::after').visibility];
    """
    ASK = "const why = document.getElementById('ask-p'); why.value = arguments[0]; why.dispatchEvent(new Event('change'));"

    def test_the_page_says_that_it_waits(self):
        self.addCleanup(browser.devtools, "Emulation.setEmulatedMedia", features=[])
        for motion, reason in (("reduce", "1"), ("no-preference", "0")):
            browser.devtools("Emulation.setEmulatedMedia", features=[{"name": "prefers-reduced-motion", "value": motion}])
            self.delay_answers(1500)
            self.assertEqual(browser.script(self.ASK + self.LOOKS, reason), ["1", "hidden"])
            browser.wait("the words", lambda: browser.script(self.LOOKS) == ["0.55", "visible"])
            self.ready("access")



# The element with the focus, and whether it is in sight: it, or its label where it is drawn by that, lies over all else at its middle.
FOCUSED = """
const element = document.activeElement;
const drawn = element.closest('label') ?? element;
const box = drawn.getBoundingClientRect();
const top = document.elementFromPoint(box.x + box.width / 2, box.y + box.height / 2);
return {
  name: element.id || element.className || element.localName, inTable: element.closest('#access') !== null,
  column: element.dataset.c, record: element.dataset.r, inSight: top !== null && drawn.contains(top),
};
"""


class Keyboard(OnThePage):
    """The page without a mouse."""

    def focused(self):
        return browser.script(FOCUSED)

    def tab_stops(self):
        """What the Tab key reaches, from the start of the page to its end."""
        stops = []
        while True:
            browser.keys(TAB)
            stop = self.focused()
            if stop["name"] in ("body", "skip") and stops:
                return stops
            stops.append(stop)
            self.assertLess(len(stops), 120)

    def tab_to(self, name):
        if self.focused()["name"] == "body":
            browser.keys(TAB)
        while self.focused()["name"] != name:
            browser.keys(TAB)
            self.assertNotEqual(self.focused()["name"], "body", f"{name} is not reached")

    def cell(self):
        stop = self.focused()
        return stop["column"], stop["record"]

    def test_the_skip_link(self):
        browser.keys(TAB)
        self.assertEqual(self.focused(), {"name": "skip", "inTable": False, "column": None, "record": None, "inSight": True})
        browser.keys(ENTER)
        self.assertEqual(browser.script("return document.activeElement.id"), "main")

    def test_the_table_is_one_tab_stop(self):
        self.assertEqual([stop["inTable"] for stop in self.tab_stops()].count(True), 1)

    def test_arrows_and_enter(self):
        browser.keys(TAB)
        while not self.focused()["inTable"]:
            browser.keys(TAB)
        self.assertEqual(self.cell(), ("r1", "0"))
        for key, column, record in (
            (DOWN, "r1", "1"),
            (RIGHT, "r2", "1"),
            (UP, "r2", "0"),
            (UP, "r2", "0"),
            (LEFT, "r1", "0"),
            (LEFT, "r0", "0"),
            (LEFT, "r0", "0"),
            (DOWN, "r0", "1"),
        ):
            browser.keys(key)
            self.assertEqual(self.cell(), (column, record))
        browser.keys(ENTER)
        self.assertEqual(self.cell(), ("r0", "1"))
        self.assertEqual(browser.script("return document.activeElement.getAttribute('aria-pressed')"), "true")
        words = self.text("#reason .why-text")
        self.assertIn("Open by default: no directive applies", words)
        self.wait_for("#say", words)
        browser.keys(TAB)
        self.assertFalse(self.focused()["inTable"])
        browser.keys(TAB, held=SHIFT)
        self.assertEqual(self.cell(), ("r0", "1"))

    def test_a_folding_button_leaves_the_tab_stop(self):
        self.open_card("demo.card", (TOP / "samples" / "demo.card").read_bytes())
        browser.script("document.querySelector('.twist').closest('tr').querySelector('.cell').focus()")
        browser.keys(LEFT)
        self.assertRegex(self.focused()["name"], "^fold-")
        self.assertEqual(len(browser.all("#access .cell[tabindex='0']")), 1)

    def test_a_directive_by_keyboard_alone(self):
        self.tab_to("write")
        browser.keys(ENTER)
        self.ready("write")
        self.assertEqual(self.text("#summary .sum-head"), "2 records change for doctors")
        self.tab_to("d-until-minute")
        browser.keys(*"2000")
        self.ready("write")
        self.assertEqual(self.value("d-until-minute"), "2000")
        self.tab_to("sign")
        browser.keys(ENTER)
        self.ready("directives")
        self.assertIn("Directive 1 is signed", self.text("#notice"))

    def test_what_has_the_focus_is_in_sight(self):
        self.click("#write")
        self.ready("write")
        self.click("#limits-box > summary")
        browser.script("document.activeElement.blur(); scrollTo(0, 0)")
        self.assertEqual([stop["name"] for stop in self.tab_stops() if not stop["inSight"]], [])


# The lowest contrast of a word that is seen, with the word. The ground is the nearest colour behind it.
CONTRAST = """
const numbers = colour => colour.match(/[0-9.]+/g).map(Number);
const light = ([r, g, b]) => [r, g, b].map(v => v / 255).map(v => (v <= 0.03928 ? v / 12.92 : ((v + 0.055) / 1.055) ** 2.4))
  .reduce((sum, v, k) => sum + v * [0.2126, 0.7152, 0.0722][k], 0);
const ground = element => {
  const colour = numbers(getComputedStyle(element).backgroundColor);
  return colour.length === 4 && colour[3] === 0 ? ground(element.parentElement) : colour;
};
const words = document.createTreeWalker(document.body, NodeFilter.SHOW_TEXT);
let lowest = [22, ''];
while (words.nextNode()) {
  const { parentElement, data } = words.currentNode;
  if (!data.trim() || !parentElement.checkVisibility() || parentElement.closest('.sr, option, .skip')) continue;
  const pair = [light(numbers(getComputedStyle(parentElement).color)), light(ground(parentElement))];
  const contrast = (Math.max(...pair) + 0.05) / (Math.min(...pair) + 0.05);
  if (contrast < lowest[0]) lowest = [contrast, data];
}
return lowest;
"""
LIGHT_GROUND = "rgb(242, 245, 246)"
DARK_GROUND = "rgb(15, 23, 27)"


class Looks(OnThePage):
    """Sizes and colours."""

    def states(self):
        """The main states of the page, one after the other."""
        self.reason("r1", 1)
        yield "open"
        self.write(**FORM_A)
        self.click("#limits-box > summary")
        yield "draft"
        self.sign()
        yield "signed"
        self.write(2, PERMIT, "Dr Sam Okafor", "Discharge letter", "Only itself", 1500, 2500)
        self.assertEqual(self.refusal()[0], 13)
        yield "refused"
        self.go("urgent")
        self.tick("t-state-0")
        self.click("#t-issue")
        self.ready("urgent")
        yield "emergency"
        self.open_card("damaged.card", DAMAGED, unsaved=True)
        yield "bad card"
        browser.find("#bad-open").type(str(TOP / "samples" / "demo.card"))
        self.ready("access")
        yield "large card"

    def test_nothing_scrolls_sideways(self):
        for state in self.states():
            self.check_widths(state)

    def ground(self):
        """The colour of the page, once no colour is on its way to another."""
        browser.script("return Promise.allSettled(document.getAnimations().map(one => one.finished)).then(() => null)")
        return browser.script("return getComputedStyle(document.body).backgroundColor")

    def test_colours(self):
        for theme, ground in (("light", LIGHT_GROUND), ("dark", DARK_GROUND)):
            self.open(server)
            self.tick(f"theme-{theme}")
            for state in self.states():
                self.assertEqual(self.ground(), ground)
                contrast, words = browser.script(CONTRAST)
                self.assertGreaterEqual(contrast, 4.5, f"{state}, {theme}: {words}")
                if (state, theme) == ("draft", "dark"):
                    self.screenshot("draft-dark")

    def test_colours_as_the_device(self):
        self.addCleanup(browser.devtools, "Emulation.setEmulatedMedia", features=[])
        for scheme, ground in (("dark", DARK_GROUND), ("light", LIGHT_GROUND)):
            browser.devtools("Emulation.setEmulatedMedia", features=[{"name": "prefers-color-scheme", "value": scheme}])
            self.assertEqual(self.ground(), ground)

    def test_a_phone_shows_one_requester(self):
        self.resize(*PHONE)
        self.choose("pick", "Nurse")
        self.assertEqual({column for column, _ in self.table()}, {"r3"})
        self.assertEqual(self.says("r3", 1), OPEN)


def main(names):
    loader = unittest.defaultTestLoader
    module = sys.modules[__name__]
    tests = loader.loadTestsFromNames(names, module) if names else loader.loadTestsFromModule(module)
    result = unittest.TextTestRunner(sys.stdout, resultclass=Counting).run(tests)
    failed = sum(map(len, (result.failures, result.errors, result.unexpectedSuccesses)))
    print(f"{result.passed} passed, {failed} failed")
    return 0 if result.passed and not failed else 1


if __name__ == "__main__":
    sys.exit(main(sys.argv[1:]))
