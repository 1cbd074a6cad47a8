"""The page in a browser, used as a person uses it. Each function here is a part of tests/page/run, and gives cases,
(about, whether it is right, what was seen) each.
"""
import base64
import contextlib
import functools
import http.server
import json
import math
import pathlib
import random
import re
import shutil
import tempfile
import threading
import time
import tomllib

import jobs
from calls import TOP, TYPES, called, found
from lives import Lives, recording_witnesses, told_event
from pace import Patience
from table import Table, table_text
from unread_types import BLIND, LOOKED_AT

PAGE = (TOP / "web/index.html").as_uri()
FIRST = 1.0  # seconds to the first number, on a machine with no other work
PHONE = {"width": 360, "height": 740, "deviceScaleFactor": 2, "mobile": True}
SLOT = """name = "slot"
states = ["empty", "a", "b"]
responses = ["done"]
[[operation]]
name = "put_a"
response = ["done", "done", "done"]
next = ["a", "a", "a"]
[[operation]]
name = "put_b"
response = ["done", "done", "done"]
next = ["b", "b", "b"]
"""

TOO_LONG = "The table is longer than 65536 bytes. (cnum: table: too long)"
FRAMED = "#example=types/three_shot&view=run"
# Links that name what is not there.
WRONG_LINKS = ["#limit=99", "#run=q,1,x", "#example=nosuch", "#inputs=abc,1&run=0", "#view=all", "#example=types/idle&table=AAAA"]
WRONG_LINKS += ["#plan=longest", "#run=5", "#inputs=1,2,3&run=0", "#inputs=1,18446744073709551616&run=0", "#example=types/idle&run=1", "#exmaple=types/idle"]

# The slot, with another name for its first state, without its second one.
WITHOUT_A = """name = "slot"
states = ["none_yet", "b"]
responses = ["done"]
[[operation]]
name = "put_a"
response = ["done", "done"]
next = ["a", "b"]
[[operation]]
name = "put_b"
response = ["done", "done"]
next = ["b", "b"]
"""

LONG = TYPES["climbed_16_8"]  # the number takes longest of the types of tests/types
LONG_UNREAD = TYPES["climbed_16_5"]  # that without reads does

# Questions to the page, in its own language.

READY = "document.documentElement.dataset.ready === 'yes'"
DECIDED = """[...document.querySelectorAll('.process')].every(it => /decided|stopped/.test(it.className))
    && document.querySelectorAll('.log li').length > 0"""
OVERLAPS = """(() => {
    const boxes = [...document.querySelectorAll('#picture .label, #picture .node')].map(it => [it.textContent, it.getBBox()]);
    const meets = (p, q) => p.x < q.x + q.width && q.x < p.x + p.width && p.y < q.y + q.height && q.y < p.y + p.height;
    return boxes.flatMap(([a, p], i) => boxes.slice(i + 1).filter(([, q]) => meets(p, q)).map(([b]) => [a, b]));
})()"""
CELLS = """[...document.querySelectorAll('#grid tbody tr')].map(row =>
    [...row.cells].slice(1).map(cell => [...cell.querySelectorAll('select')].map(it => it.value).join('>')))"""
ACTS = """(async acts => {
    const columns = [...document.querySelectorAll('.process')];
    for (const [process, stops] of acts) columns[process].querySelectorAll('.buttons button')[stops ? 1 : 0].click();
    await Cnum.page.protocol.update();
})(%s)"""
# The state that is lit in each picture, and the text of the last operation.
LIT = """[...document.querySelectorAll('svg.states')].flatMap(it => [
    [...it.querySelectorAll('.node.lit')].map(one => one.dataset.state),
    [...it.querySelectorAll('.label text.lit')].map(one => one.dataset.operation),
])"""
# The texts of a picture that lie on another. Their boxes have the white around the letters, 4 points.
TEXTS_MEET = """(() => {
    const boxes = [...document.querySelectorAll('%s text')].map(it => [it.textContent, it.getBoundingClientRect()]);
    const meets = (p, q) => p.left + 4 < q.right && q.left + 4 < p.right && p.top + 8 < q.bottom && q.top + 8 < p.bottom;
    return boxes.flatMap(([a, p], i) => boxes.slice(i + 1).filter(([, q]) => meets(p, q)).map(([b]) => [a, b]));
})()"""
TRIED = "/agree|breaks|every schedule/.test(document.querySelector('.trial').textContent)"
# For each button of a process: whether the last line of the log is seen when the button is.
FROM_BUTTON_TO_LOG = """[...document.querySelectorAll('.process button')].map(it => {
    it.scrollIntoView({ block: 'center' });
    const last = document.querySelector('.log li:last-child').getBoundingClientRect();
    return last.top >= 0 && last.bottom <= innerHeight;
})"""
# The height of a letter of the picture, in points of the window.
LETTER = "(it => it ? 13 * it.clientWidth / it.getAttribute('width') : 0)(document.querySelector('#picture svg'))"
# Whether the start state, or else the first one, is in the part of the picture that is seen.
START_IN_VIEW = """(([a, b]) => a.left <= b.left && b.right <= a.right && a.top <= b.top && b.bottom <= a.bottom)(
    [document.getElementById('picture'), document.querySelector('#picture .start') || document.querySelector('#picture .node')]
        .map(it => it.getBoundingClientRect()))"""
# Opens what is behind a button, and shows the screen of the run.
OPEN_ALL = "(() => { for (const it of document.querySelectorAll('.opener[aria-expanded=false]')) it.click(); })()"
SHOW_RUN = "Cnum.page.screens.open('run')"
# Scrolls the picture of the run to its beginning, where the names of the processes lie on nothing.
TO_THE_BEGINNING = "(it => { it.scrollLeft = 0; it.dispatchEvent(new Event('scroll')); })(document.querySelector('.space-time').parentElement)"
SAVE_BUTTONS = "[...document.querySelectorAll('#protocol .buttons button')].filter(it => /^Save/.test(it.textContent))"
OBJECTS = ["starts in bot", "a1 → a2, y answered a"]
ACTS_SHOWN = ["writes 20", "x/a", "writes 30", "y/a", "writes 10", "stops", "reads a2"]
FOCUSABLE = "a[href], button:not(:disabled), input, select, textarea, [tabindex='0'], summary"
MARK_FOCUSED = """(it => {
    window.reached = window.reached || new Map();
    if (!window.reached.has(it)) window.reached.set(it, window.reached.size);
    return window.reached.get(it);
})(document.activeElement)"""
CONTRAST = """(() => {
    const numbers = text => text.match(/[\\d.]+/g).map(Number);
    const light = color => {
        const part = it => (it <= 0.03928 ? it / 12.92 : ((it + 0.055) / 1.055) ** 2.4);
        const [r, g, b] = numbers(color).map(it => part(it / 255));
        return 0.2126 * r + 0.7152 * g + 0.0722 * b;
    };
    const ground = it => {
        for (; it; it = it.parentElement) {
            const color = getComputedStyle(it).backgroundColor;
            if (!color.startsWith('rgba') || numbers(color)[3] === 1) return color;
        }
        return 'rgb(255, 255, 255)';
    };
    const hasText = it => [...it.childNodes].some(one => one.nodeType === 3 && one.textContent.trim());
    const texts = [...document.querySelectorAll('body *')].filter(it => hasText(it) && it.checkVisibility());
    return texts.filter(it => !it.closest('svg, :disabled, option, #marks, noscript')).map(it => {
        const [a, b] = [light(getComputedStyle(it).color), light(ground(it))];
        return [(Math.max(a, b) + 0.05) / (Math.min(a, b) + 0.05), it.outerHTML.slice(0, 80)];
    });
})()"""


class Use:
    """The page in a browser, and how a person uses it."""

    def __init__(self, browser):
        self.browser, self.value, self.call = browser, browser.value, browser.call

    def open(self, link="", page=TOP / "web/index.html", ready=READY):
        """Opens the page anew, and waits until it is all there."""
        self.browser.open("about:blank")
        self.browser.open(page.as_uri() + link)
        return self.until(ready)

    def until(self, text, seconds=60):
        """Whether an expression holds within this time. While a page is loaded, it may fail."""
        end = time.monotonic() + seconds
        while time.monotonic() < end:
            with contextlib.suppress(RuntimeError):
                if self.value(text):
                    return True
            time.sleep(0.02)
        return False

    def saved(self, room, action, before=""):
        """The file that an action offers, written to this folder."""
        self.value("(() => { Cnum.offer = (...words) => (window.offered = words); })()")
        self.do(f"await {action};")
        name, content = self.value("window.offered.slice(0, 2)")
        pathlib.Path(room, before + name).write_text(content)
        return pathlib.Path(room, before + name)

    def seen(self):
        """The table, the number, the run that the page shows, and whether objects are read."""
        return self.table(), self.text("number"), self.texts(".log li"), self.value("Cnum.page.protocol.inputs"), self.value("Cnum.page.reads")

    def text(self, name):
        return self.value(f"document.getElementById('{name}').textContent")

    def texts(self, selector):
        return self.value(f"[...document.querySelectorAll({json.dumps(selector)})].map(it => it.textContent)")

    def count(self, selector):
        return self.value(f"document.querySelectorAll({json.dumps(selector)}).length")

    def is_hidden(self, name):
        return self.value(f"document.getElementById('{name}').hidden")

    def has_number(self, number, place="number"):
        """Whether the page shows this number in the end."""
        return self.until(f"document.getElementById({place!r}).textContent === {json.dumps(number)}")

    def do(self, action):
        """Does something in the page, and waits until it has ended."""
        self.value(f"(async () => {{ {action} }})()")

    def give(self, table):
        self.do(f"Cnum.page.text = {json.dumps(table)}; await Cnum.page.refresh();")

    def begin(self, table):
        """Gives a table, and does not wait for the results."""
        self.value(f"(() => {{ Cnum.page.text = {json.dumps(table)}; Cnum.page.refresh(); }})()")

    def choose(self, path):
        self.do(f"await Cnum.page.choose({json.dumps(path)});")

    def tool(self, name):
        """Presses a button of the picture."""
        self.value(f"document.querySelector('#picture-tools [aria-label={name}]').click()")

    def press_key(self, place, key, **how):
        """Presses a key at an element, as an event of the page alone."""
        made = json.dumps({"key": key, "bubbles": True, "cancelable": True, **how})
        self.value(f"(() => {{ document.querySelector({json.dumps(place)}).dispatchEvent(new KeyboardEvent('keydown', {made})); }})()")

    def press_code(self, code, shift=False):
        """Presses the key of this code where the focus is, as an event of the page alone."""
        made = json.dumps({"code": code, "shiftKey": shift, "bubbles": True, "cancelable": True})
        self.value(f"(() => {{ document.activeElement.dispatchEvent(new KeyboardEvent('keydown', {made})); }})()")

    def search(self, query):
        """Types this into the field of the examples. The names that are found."""
        field = "document.getElementById('example')"
        self.value(f"(it => {{ it.focus(); it.value = {json.dumps(query)}; it.dispatchEvent(new Event('input')); }})({field})")
        return self.texts("#examples [role=option] strong")

    def type(self, text):
        """Puts a text behind the table, as typing does."""
        self.value(f"(it => {{ it.value += {json.dumps(text)}; it.dispatchEvent(new Event('input')); }})(document.getElementById('table'))")

    def limit(self, limit):
        """Chooses the number of processes of the protocol, if more can agree."""
        self.do(f"Cnum.page.choice.limit = {limit}; await Cnum.page.refresh();")

    def edit(self, change, *words):
        """Changes the table by one of Cnum.edits."""
        given = "".join(f", {json.dumps(it)}" for it in words)
        self.do(f"await Cnum.page.edit(Cnum.edits.{change}(new Cnum.TableText(Cnum.page.text){given}));")

    def table(self):
        return self.value("Cnum.page.text")

    def press(self, label):
        """Presses a button of the protocol."""
        self.value(f"[...document.querySelectorAll('#protocol .controls button')].find(it => it.textContent === {label!r}).click()")

    def slide(self, count):
        """Leads to a place of the run by the slider."""
        events = "it.dispatchEvent(new Event('input')); it.dispatchEvent(new Event('change'));"
        self.value(f"(it => {{ it.value = {count}; {events} }})(document.getElementById('run-place'))")

    def trial(self):
        return self.value("document.querySelector('.trial').textContent")

    def offered(self, action):
        """The name and the content of the file that an action offers."""
        self.value("(() => { window.offered = null; Cnum.offer = (...words) => (window.offered = words); })()")
        self.value(f"(() => {{ {action} }})()")
        self.until("window.offered")
        content = "typeof window.offered[1] === 'string' ? new Blob([window.offered[1]]) : window.offered[1]"
        letters = f"new Response({content}).arrayBuffer().then(it => btoa(String.fromCharCode(...new Uint8Array(it))))"
        return self.value("window.offered[0]"), base64.b64decode(self.value(letters))

    def key(self, key, code, alt=False, shift=False, name=None):
        how = {"key": key, "code": name or key, "windowsVirtualKeyCode": code, "modifiers": alt + 8 * shift}
        for kind in ("rawKeyDown", "keyUp"):
            self.call("Input.dispatchKeyEvent", type=kind, **how)


def native_number(table):
    """The number that the program itself prints."""
    return called(["classify", "-"], table)[0].decode().partition(": ")[2].strip()


def native_unread(table):
    """The number without reads that the program itself prints."""
    return called(["classify", "--without-read", "-"], table)[0].decode().partition(", without read ")[2].strip()


def first_answer(use):
    times, patience = [], Patience(FIRST)
    for _ in range(3):
        use.browser.open("about:blank")
        began = time.monotonic()
        use.browser.open(PAGE)
        yield "the first answer comes", use.has_number("2"), ""
        times.append(time.monotonic() - began)
    print(f"tests/page: the first number after {min(times):.2f} s")
    yield f"and under {FIRST} s", min(times) < patience.bound(), times


def flaws(use):
    table = TYPES["test_and_set"]
    place = table.rindex('"one"')
    use.open()
    use.value(f"(() => {{ const it = document.getElementById('table'); it.focus(); it.setSelectionRange({place}, {place + 5}); }})()")
    use.call("Input.insertText", text='"onee"')
    yield "a flaw while one types", use.until("document.querySelectorAll('#flaws li').length === 1"), use.text("flaws")
    bottoms = use.value("['#flaws', '#table-part'].map(it => document.querySelector(it).getBoundingClientRect().bottom)")
    yield "it is in view", bottoms[0] <= bottoms[1] <= use.value("innerHeight"), bottoms
    lint = called(["lint"], table[:place] + '"onee"' + table[place + 5 :])
    fault = f"An entry names what the table does not have. ({lint[1].decode().strip()})"
    told = use.text("flaws") + "\n", use.text("fault")
    yield "it reads as lint has it, with the fault in words", told == (lint[0].decode(), fault), told
    yield "there is no legend without a picture", use.is_hidden("legend"), ""
    yield "it is marked in the text", use.texts("#marks mark") == ['"onee"'], use.texts("#marks mark")
    yield "there is no number", use.text("number") == "–", use.text("number")
    use.value("document.querySelector('#flaws button').click()")
    selected = use.value("(it => it.value.slice(it.selectionStart, it.selectionEnd))(document.getElementById('table'))")
    yield "its button leads there", selected == '"onee"', selected
    yield "the field says that it is not right", use.value("document.getElementById('table').getAttribute('aria-invalid')") == "true", ""
    for given, marked in flawed(table):
        use.give(given)
        lines = "".join(f"{it}\n" for it in use.texts("#flaws li"))
        yield f"the flaws of {given!r}", lines == called(["lint"], given)[0].decode(), lines
        yield f"what is marked of {given!r}", use.texts("#marks mark") == marked, use.texts("#marks mark")
    use.give("\xe9" * 40000)
    yield "a table that is too long", (use.text("fault"), use.text("number")) == (TOO_LONG, "–"), use.text("fault")


def flawed(table):
    """Tables with one flaw or more, and the marked parts of the text."""
    number = table.replace("[[operation]]\n", "operation = [3]\n# ").replace("\nresponse =", "\n# ").replace("\nnext", "\n# next")
    return [
        (table.replace('next = ["one"', "next = one"), ["o"]),
        (table.replace("next =", "then ="), ["[[operation]]", "then"]),
        (table.replace('name = "tas"', 'name = "Tas"'), ['"Tas"']),
        (table.replace('"zero", "one"]\nresp', '"zero", "zero"]\nresp'), ['"zero"', '"one"', '"one"']),
        (table.replace('next = ["one", "one"]', 'next = ["one"]'), ['["one"]']),
        (table.replace('name = "test_and_set"', "name = 7"), ["7"]),
        (table.replace('responses = ["zero", "one"]', "responses = []"), ["[]", '"zero"', '"one"']),
        (table + 'color = "red"\n', ["color"]),
        (number, ["3"]),
    ]


def examples(use):
    use.open()
    paths = use.value("Cnum.examples.flatMap(it => it.types).map(it => it.path)")
    yield "all types are offered", sorted(paths) == sorted(it for it in jobs.TABLES if not it.startswith("tests/")), paths
    for path in paths:
        use.choose(path)
        table = jobs.TABLES[path].decode()
        yield f"the number of {path}", use.text("number") == native_number(table), use.text("number")
        grid = called(["lint"], table)[0].decode().splitlines()[2:]
        cells, shown = [line.split()[1:] for line in grid if line.startswith("  ")], use.value(CELLS)
        yield f"the grid of {path}", shown == [row[: len(shown[0])] for row in cells], shown
        notes = [it for it in grid if it.startswith(("state ", "operation "))]
        told = use.texts("#notes li")
        yield f"the notes on {path}", [names_in(it) for it in told] == [names_in(it) for it in notes], (told, notes)
        yield f"the picture of {path}", use.value(OVERLAPS) == [], use.value(OVERLAPS)
        arrows = called(["draw"], table)[0].decode().count("->")
        yield f"each arrow of {path}", use.count("#picture .label") == arrows, arrows


def names_in(note):
    """The names in a note of `lint` or of the page: those of states, and of an operation that changes nothing."""
    return [it.strip(":.") for it in note.split()[1 :: 5 if note.lower().startswith("state") else 100]]


def meanings(use):
    """What the page says of both numbers: of a number, of no greatest number, and of what is not decided."""
    use.open()
    for name, number, without, *told in (
        ("idle", "1", "1", "one process alone decides,", "no protocol lets 2 agree."),
        ("three_shot", "3", "3", "3 processes can agree", "no protocol lets 4 agree."),
        ("sticky_bit", "infinite", "infinite", "any number of processes can agree"),
        ("queue_2", "infinite", "2", "any number of processes can agree"),
        ("inc_dec_9", "9", "9", "9 processes can agree", "no protocol lets 10 agree."),
        ("memory_swap_own_8", "8", "1", "8 processes can agree", "no protocol lets 9 agree."),
        ("inc_dec_copies_16_8", "16", "16", "16 processes can agree", "no protocol lets 17 agree."),
        ("climbed_16_5", "6", "at least 5, at most 6, not decided", "6 processes can agree", "no protocol lets 7 agree."),
    ):
        use.give(TYPES[name] if name in TYPES else (TOP / f"catalogue/{name}.toml").read_text())
        said = use.text("meaning")
        well = use.has_number(without, "number-without") and use.text("meaning-without").startswith("By the operations of the table alone, ")
        yield f"the number of {name} without reads", well, (use.text("number-without"), use.text("meaning-without"))
        yield f"the number of {name}", use.text("number") == number, use.text("number")
        recoverable = called(["classify", "--recoverable", "-"], use.table())[0].decode().partition(", recoverable ")[2].strip()
        line = use.text("recoverable")
        yield f"the recoverable number of {name}", line.startswith(f"Recoverable number: {recoverable}. "), line
        yield f"what it says of {name}", all(it in said for it in told) and ("no protocol" in said) == (number != "infinite"), said
    yield "what is not decided is said", "agree; what lies between is not decided." in use.text("meaning-without"), use.text("meaning-without")


def pictures(use):
    """Tables made at random, and the greatest one, up to 16 states and 8 operations."""
    use.open()
    use.limit(2)
    source = random.Random(7)
    sizes = [(3, 2), (5, 3), (8, 3), (8, 8), (12, 2), (12, 4), (16, 2), (16, 4), (16, 8)]
    for table in [TYPES["greatest"], *(random_table(source, *size) for size in sizes)]:
        began = time.monotonic()
        use.give(table)
        about = f"a picture of {table.count('[[')} operations, {time.monotonic() - began:.1f} s"
        yield about, use.value(OVERLAPS) == [] and use.count("#picture svg") == 1, use.value(OVERLAPS)


def picture_tools(use):
    """Letters that can be read, larger and smaller, and the choice of operations."""
    use.open()
    use.limit(2)
    use.give(random_table(random.Random(7), 16, 8))
    for about, size in (("a window", None), ("a phone", PHONE)):
        if size:
            use.call("Emulation.setDeviceMetricsOverride", **size)
        use.until(f"{LETTER} > 0")
        letter = use.value(LETTER)
        yield f"letters of 16 states and 8 operations in {about}", letter >= 11, letter
        before = use.value("document.querySelector('#picture svg').clientWidth")
        use.tool("larger")
        yield "larger", use.value("document.querySelector('#picture svg').clientWidth") > before, before
        use.tool("smaller")
        use.value("[...document.querySelectorAll('#picture-tools button')].find(it => it.textContent === 'Fit').click()")
        yield "and back", use.value("document.querySelector('#picture svg').clientWidth") == before, before
    use.call("Emulation.clearDeviceMetricsOverride")
    use.choose("types/three_shot")
    labels = use.texts("#picture .label text:not(.badge)")
    use.value("document.querySelector('#operations input').click()")
    left = use.texts("#picture .label text:not(.badge)")
    yield "an operation is left out", left == [it for it in labels if not it.startswith("x/")] and use.value(OVERLAPS) == [], left
    use.value("document.querySelector('#operations input').click()")
    yield "and comes back", use.texts("#picture .label text:not(.badge)") == labels, ""


def words(use):
    """The words of the subject, explained where they stand."""
    use.open("#example=types/test_and_set")
    use.value(OPEN_ALL)
    for place, word in (("#legend", "witness"), ("#why", "team"), ("#plan-said", "plan tree"), ("#protocol", "nodes"), ("#protocol", "register")):
        at = f"[...document.querySelectorAll('{place} .word')].find(it => it.textContent.toLowerCase().startsWith({word!r}))"
        note = f"document.getElementById({at}.getAttribute('aria-controls'))"
        before = use.value(f"{note}.hidden")
        use.value(f"{at}.click()")
        told = use.value(f"[!{note}.hidden, {at}.getAttribute('aria-expanded'), {note}.textContent.length > 20]")
        yield f"{word} at {place}", before and told == [True, "true", True], (before, told)


def random_table(source, states, operations):
    names = [f"s{k}" if source.random() < 0.8 else f"state_with_a_long_name_{k}" for k in range(states)]
    answers = ["yes", "no"]
    chosen = [[[source.choice(its) for _ in names] for its in (answers, names)] for _ in range(operations)]
    return table_text("random", names, answers, [(f"op_{k}", *rows) for k, rows in enumerate(chosen)])


def grid(use):
    """The slot of the README, changed cell by cell."""
    use.open()
    use.give(SLOT)
    yield "a slot", use.text("number") == "1", use.text("number")
    for label, name, number in (("state after put_a in b", "b", "1"), ("state after put_b in a", "a", "infinite")):
        field = f"[...document.querySelectorAll('#grid select')].find(it => it.getAttribute('aria-label') === {label!r})"
        use.value(f"(it => {{ it.focus(); it.value = {name!r}; it.dispatchEvent(new Event('change')); }})({field})")
        well = use.until("/processes|alone/.test(document.getElementById('meaning').textContent)") and use.has_number(number)
        yield f"{label} is {name}", well, use.text("number")
        yield "the focus stays", use.value(f"document.activeElement.getAttribute('aria-label') === {label!r}"), ""
    wanted = SLOT.replace('"a", "a", "a"', '"a", "a", "b"').replace('"b", "b", "b"', '"b", "a", "b"')
    yield "the text follows", use.table() == wanted, use.table()
    yield "it is no example any more", use.value("document.getElementById('example').value") == "", ""
    use.value("document.getElementById('undo').click()")
    yield "a change is undone", use.has_number("1"), use.text("number")
    for kind, count in (("State", 3), ("Operation", 2), ("Response", 1)):
        before = use.table()
        use.edit(f"add{kind}")
        yield f"the table stays right with one {kind} more", use.text("fault") == "" and use.table() != before, use.text("fault")
        use.edit(f"remove{kind}", count)
        yield f"and is as before with one {kind} less", use.table() == before, use.table()
    use.edit("rename", "states", 0, "none_yet")
    yield "a state has another name", '"none_yet"' in use.table() and use.text("fault") == "", use.text("fault")
    use.edit("removeState", 1)
    yield "a state in the middle is taken away, and what led to it stays", use.table() == WITHOUT_A, use.table()
    marked = use.texts("#marks mark"), use.count("#grid td [aria-invalid]"), use.texts("#grid .trouble")
    wanted = ['"a"'], 1, ["Choose anew what is marked: 1 entry names what is not there any more."]
    yield "and is marked, in the text and in the grid", marked == wanted, marked


def changes(use):
    """Undo and redo, limits for what is added, a table of one's own."""
    use.open()
    first = use.table()
    use.type("# mine\n")
    typed = use.table()
    use.choose("types/idle")
    use.do(f"await Cnum.page.edit({json.dumps(SLOT)});")
    seen = [use.table()]
    for _ in range(3):
        use.value("document.getElementById('undo').click()")
        seen.append(use.table())
    yield "typing, an example and another table are undone", seen == [SLOT, jobs.TABLES["types/idle"].decode(), typed, first], seen
    yield "no more than there is", use.value("document.getElementById('undo').disabled"), ""
    for place, key, how, wanted in (
        ("#table", "z", {"ctrlKey": True, "shiftKey": True}, typed),
        ("body", "y", {"ctrlKey": True}, seen[1]),
        ("#table", "z", {"metaKey": True}, typed),
        ("#redo", "Z", {"ctrlKey": True, "shiftKey": True}, seen[1]),
        ("#example", "z", {"ctrlKey": True}, seen[1]),
    ):
        use.press_key(place, key, **how)
        yield f"the keys {key} {how} at {place}", use.table() == wanted, use.table()
    use.until("!document.getElementById('redo').disabled")
    use.type("x")
    yield "a change forgets what was undone", use.until("document.getElementById('redo').disabled", 5), ""
    use.value("document.getElementById('own').click()")
    yield "a table of one's own", use.has_number("1") and use.table().startswith('name = "my_type"'), use.table()
    for label, most, count in (("Add a state", 16, 20), ("Add an operation", 8, 12), ("Add a response", 16, 20)):
        button = f"document.querySelector('#grid [aria-label=\"{label}\"]')"
        use.value(f"{button}.focus()")
        for _ in range(count):
            use.do(f"{button}.click(); await Cnum.page.refresh();")
        noun = {"s": "states", "o": "operation", "r": "responses"}[label.split()[-1][0]]
        made = use.value(f"new Cnum.TableText(Cnum.page.text).items('{noun}').length")
        focused = use.value(f"document.activeElement === {button}")
        yield f"{label}: at most {most}, and the focus stays", made == most and focused and use.text("flaws") == "", (made, focused)


def comparisons(use):
    """A table without each of its operations, and beside one that was kept."""
    use.open("#example=catalogue/queue_2")
    press = "[...document.querySelectorAll('#comparison button')].find(it => it.textContent === %r).click()"
    use.value(press % "Without each operation")
    use.until("document.querySelectorAll('#comparison tbody tr').length > 0")
    seen = use.value("[...document.querySelectorAll('#comparison tbody tr')].map(it => [it.cells[0].textContent, it.cells[1].textContent])")
    wanted = [["none", "infinite"]]
    for index, name in enumerate(use.value("new Cnum.TableText(Cnum.page.text).operations.map(it => it.name.text)")):
        wanted.append([name, native_number(use.value(f"Cnum.edits.removeOperation(new Cnum.TableText(Cnum.page.text), {index})"))])
    yield "the number without each operation", seen == wanted and len(seen) > 3, (seen, wanted)
    use.value(press % "Each pair of operations")
    use.until("document.querySelectorAll('#comparison tbody button').length === 6")
    cells = use.texts("#comparison tbody button")
    told = json.loads(called(["pairs", "--as", "json", "-"], use.table())[0])
    numbers = {frozenset(it["operations"]): str(it["number"]) for it in told["alone"] + told["pairs"]}
    names = [it["operations"][0] for it in told["alone"]]
    wanted_cells = [numbers[frozenset({first, second})] for k, first in enumerate(names) for second in names[: k + 1]]
    yield "the number of each pair", cells == wanted_cells and len(set(cells)) > 1, (cells, wanted_cells)
    sets = use.texts("#comparison li")
    yield "the smallest sets with the number", sets == [", ".join(it) for it in told["smallest"]] != [], sets
    use.open("#example=catalogue/queue_2&view=pairs")
    yield "they are a view of their own", use.until("document.querySelectorAll('#comparison tbody button').length === 6"), ""
    use.value("document.querySelectorAll('#comparison tbody button')[1].click()")
    whole = use.until("!document.body.classList.contains('one-part') && document.querySelectorAll('#why .pairs').length > 0", 20)
    yield "a cell opens why of that pair", whole and use.has_number(cells[1]) and use.count("#grid tbody tr") == 2, use.text("number")
    use.open("#example=catalogue/swap_3&crashes=yes")
    use.value(press % "Without each operation")
    use.until("document.querySelectorAll('#comparison tbody tr').length === 4")
    sets = [["none", use.table()], *use.value("Cnum.withoutEach(Cnum.page.text).map(it => [it.operation, it.text])")]
    lines = [[name, called(["classify", "--recoverable", "-"], text)[0].decode().partition(", recoverable ")[2].strip()] for name, text in sets]
    yield "recoverable numbers, if processes come back", use.value(CELL_TEXTS) == lines, (use.value(CELL_TEXTS), lines)
    use.value(press % "Each pair of operations")
    use.until("document.querySelectorAll('#comparison tbody button').length === 6")
    cells = use.texts("#comparison tbody button")
    yield "also of each pair", [cells[4], cells[3], cells[1]] == [it[1] for it in lines[1:]], (cells, lines)
    use.open("#example=catalogue/queue_2")
    use.value(press % "Without each operation")
    use.until("document.querySelectorAll('#comparison tbody button').length === 3")
    use.value("document.querySelector('#comparison tbody button').click()")
    yield "such a table can be shown", use.has_number(wanted[1][1]) and wanted[1][0] not in use.texts("#grid tbody th .on-paper"), use.table()
    use.give(SLOT)
    use.value(press % "Keep this table to compare")
    use.give(SLOT.replace('"b", "b", "b"', '"b", "a", "b"'))
    well = use.until("document.querySelectorAll('#comparison tbody tr').length === 1", 10)
    told = use.texts("#comparison tbody td, #comparison p")
    well = well and told[1:] == ["a", "done → b", "done → a"] and "was 1, and is 1 now" in told[0]
    yield "a table beside the one that was kept", well, told
    use.value(press % "Show the table that was kept")
    yield "it comes back", use.table() == SLOT, use.table()
    use.give("x")
    yield "a table with a flaw is not compared", use.count("#comparison table") == 0, ""


PRESS_COMPARISON = "[...document.querySelectorAll('#comparison button')].find(it => it.textContent === %r).click()"
CHOSEN = "[...document.querySelectorAll('.answer.chosen [name=reads]:checked')].map(it => it.id)"
ONE_OR_TWO = "Cnum.setsUpToTwo(Cnum.page.text).map(it => [it.operations, it.text])"
CELL_TEXTS = "[...document.querySelectorAll('#comparison tbody tr')].map(it => [it.cells[0].textContent, it.cells[1].textContent])"


def unread(use):
    """The choice of objects that nobody reads: comparisons, the search over the examples, and links are for it."""
    use.open("#example=catalogue/queue_2")
    both = use.has_number("2", "number-without") and use.text("number") == "infinite"
    yield "a queue has 2, and infinite if its state can be read", both, (use.text("number-without"), use.text("number"))
    yield "objects that can be read are chosen first", use.value(CHOSEN) == ["reads"] and use.is_hidden("protocol-of"), use.value(CHOSEN)
    use.value("document.getElementById('reads-without').click()")
    yield "others are chosen, and the link says so", use.until("location.hash === '#example=catalogue/queue_2&reads=no'", 5), use.value("location.hash")
    said = use.value(CHOSEN), use.texts(".of-choice span"), use.is_hidden("protocol-of"), use.text("limit-said")
    well = said[0] == ["reads-without"] and all(it.startswith("Without reads") for it in said[1]) and not said[2]
    yield "each part says so", well and said[3].startswith("The protocol is for 3 processes"), said
    sets = use.value(ONE_OR_TWO)
    use.value(PRESS_COMPARISON % "Each pair of operations")
    use.until("document.querySelectorAll('#comparison tbody button').length === 6")
    numbers = {frozenset(operations): native_unread(text) for operations, text in sets}
    names = [operations[0] for operations, _ in sets if len(operations) == 1]
    wanted = [numbers[frozenset({first, second})] for k, first in enumerate(names) for second in names[: k + 1]]
    yield "the number of each pair", use.texts("#comparison tbody button") == wanted, (use.texts("#comparison tbody button"), wanted)
    yield "the smallest sets with the number", use.texts("#comparison li") == names, use.texts("#comparison li")
    use.value("document.querySelector('#compare-of button').click()")
    well = use.until("/infinite/.test(document.getElementById('comparison').textContent)", 10) and use.value(CHOSEN) == ["reads"]
    yield "the button leads back, and the comparison follows", well and use.count("#comparison tbody button") == 6, use.text("comparison")
    yield "and so does the link", use.until("location.hash === '#example=catalogue/queue_2'", 5), use.value("location.hash")
    use.value("document.getElementById('open-why-without').click()")
    well = use.value("document.activeElement.id === 'why-part'") and use.value(CHOSEN) == ["reads-without"]
    yield "the question beside a number leads to its reasons", well and use.text("open-why-without") == "Why 2 and not 3?", use.value(CHOSEN)
    use.open("#example=catalogue/deque_2&reads=no&view=pairs")
    yield "a link shows it", use.until("document.querySelectorAll('#comparison tbody button').length === 21"), use.text("comparison")
    use.open("#example=catalogue/queue_2&reads=no")
    use.value(PRESS_COMPARISON % "Without each operation")
    use.until("document.querySelectorAll('#comparison tbody tr').length === 4")
    whole = "Cnum.withoutEach(Cnum.page.text).map(it => [it.operation, it.text])"
    wanted = [["none", "2"]] + [[name, native_unread(text)] for name, text in use.value(whole)]
    yield "the number without each operation", use.value(CELL_TEXTS) == wanted, (use.value(CELL_TEXTS), wanted)
    use.value(PRESS_COMPARISON % "Keep this table to compare")
    use.choose("catalogue/peek_queue_2")
    well = use.until("document.querySelectorAll('#comparison h3').length === 1", 10)
    yield "a table beside another", well and "was 2, and is infinite now" in use.text("comparison"), use.text("comparison")
    use.search("queue_2")
    found = use.until("/if its state can be read/.test(document.getElementById('examples').textContent)", 10)
    said = use.value("document.querySelector('#examples [role=option]').textContent")
    yield "the examples have both numbers", found and said.startswith("queue_2 (2, and infinite if its state can be read)"), said
    use.value("(it => { it.value = '2'; it.dispatchEvent(new Event('change')); })(document.getElementById('example-number'))")
    names = use.texts("#examples [role=option] strong")
    yield "and are found by the one that is chosen", "queue_2" in names and "window_2" not in names and "test_and_set" in names, names
    use.open("#example=types/three_shot&reads=no&crashes=yes&run=0,1")
    said = use.text("limit-said"), use.count(".process"), use.value("location.hash")
    yield "beside processes that come back", said == ("", 2, "#example=types/three_shot&crashes=yes&reads=no&inputs=10,20&run=0,1"), said
    use.open("#example=types/test_and_set&reads=yes")
    yield "another choice is refused", "reads=yes" in use.text("trouble") and use.is_hidden("content"), use.text("trouble")


EACH_ENTRY = "With each entry changed"
TWO_CHANGES = "Try two changes at once"
MAPPED = "document.querySelectorAll('.entries').length === 1"
# The map of changes: its entries, what raises the number, and what is told of the entry that is open.
ENTRIES = "[...document.querySelectorAll('.entries tbody tr')].map(row => [...row.querySelectorAll('button')].map(it => it.textContent))"
RAISING = "#comparison li button"
OPENED = """[...document.querySelectorAll('.opened tbody tr')].map(row =>
    [row.cells[0].textContent, [...row.querySelectorAll('button')].map(it => it.textContent)])"""
# Types, each with the part of a link that chooses a number, the option that asks for this number, and what the page says of the choice.
MAPS = [(name, "", [], "For objects that can be read.") for name in ("queue_1", "window_2", "saturating_add_1_2", "cas_3", "semaphore_3", "swap_3")]
MAPS += [("shot_3", "&crashes=yes", ["--recoverable"], "For objects that can be read, if processes may crash and come back.")]
MAPS += [(name, "&reads=no", ["--without-read"], "Without reads: processes have the operations of the table alone.") for name in ("queue_1", "window_2")]
MAPS += [("queue_1", "&reads=no&crashes=yes", ["--without-read"], "Without reads: processes have the operations of the table alone.")]
MOST_CHANGES = 40  # in a list, before the reader asks for more


def bounds_of(number):
    """The least and the greatest that a number can be."""
    if number == "infinite":
        return math.inf, math.inf
    return (number["at_least"], number.get("at_most", math.inf)) if isinstance(number, dict) else (number, number)


def words_of(number):
    least, most = bounds_of(number)
    if not isinstance(number, dict):
        return str(number)
    return f"at least {least}, at most {most}, not decided" if most < math.inf else f"at least {least}, no upper bound found"


class Changes:
    """What the program tells of the entries of a table, as the page has to show it."""

    def __init__(self, table, options):
        told = json.loads(called(["changes", *options, "--as", "json", "-"], table)[0])
        self.table, self.number, self.changes = Table(table), told["number"], told["changes"]

    def entries(self):
        return [(row, state) for row in range(len(self.table.operations)) for state in range(len(self.table.states))]

    def nexts(self, row, state):
        """The next states of an entry, each with the numbers there; a number has a response if others have another number."""
        table = self.table
        names = table.operations[row], table.states[state]
        response, present = table.act(row, state)
        others = [it for it in table.responses if it != table.responses[response]]
        for it in self.changes:
            if (it["operation"], it["state"]) == names:
                is_present = it["next"] == table.states[present]
                only = others[0] if is_present and len(others) == 1 else None
                agreed = [(it["number"], only)] if it["number"] is not None else []
                yield it["next"], is_present, agreed + [(one["number"], one["response"]) for one in it["responses"]]

    def sign(self, number):
        (least, most), (first, last) = bounds_of(number), bounds_of(self.number)
        return " ↑" * (last < least) + " ↓" * (most < first)

    def grid(self):
        cells = {}
        for row, state in self.entries():
            response, present = self.table.act(row, state)
            rests = any(self.sign(number) == " ↓" for _, _, numbers in self.nexts(row, state) for number, _ in numbers)
            cells[row, state] = f"{self.table.responses[response]} → {self.table.states[present]}{'*' * rests}"
        return [[cells[row, state] for state in range(len(self.table.states))] for row in range(len(self.table.operations))]

    def raising(self):
        found = []
        for row, state in self.entries():
            for after, is_present, numbers in self.nexts(row, state):
                for number, response in numbers:
                    behind = f" and answers {response}" if response else " and answers otherwise" * is_present
                    said = f"{words_of(number)} if {self.table.operations[row]} in {self.table.states[state]} leads to {after}{behind}"
                    found += [(-bounds_of(number)[0], said)] * (self.sign(number) == " ↑")
        return [said for _, said in sorted(found, key=lambda it: it[0])]

    def opened(self, row, state):
        def text(number, response):
            return (f"{response}: " if response else "") + words_of(number) + self.sign(number)

        return [[after + ", as it is" * is_present, [text(*it) for it in numbers]] for after, is_present, numbers in self.nexts(row, state)]


def entry_changes(use):
    """The map of changes: the number with each other entry, of each kind."""
    for name, link, options, choice in MAPS:
        about = " ".join([name, *options])
        use.open(f"#example=catalogue/{name}&screen=change{link}")
        yield f"{about}: it is not asked for by the page", use.count(".entries") == 0, ""
        yield f"{about}: which number it is", use.texts("#compare-of span") == [choice], use.texts("#compare-of span")
        use.value(PRESS_COMPARISON % EACH_ENTRY)
        yield f"{about}: there is a map", use.until(MAPPED), use.text("comparison")
        told = Changes(use.table(), options)
        yield f"{about}: the entries on which the number rests", use.value(ENTRIES) == told.grid(), (use.value(ENTRIES), told.grid())
        raising = use.texts(RAISING)
        yield f"{about}: what raises it", raising == told.raising()[:MOST_CHANGES], (raising, told.raising())
        for place, (row, state) in enumerate(told.entries()):
            use.value(f"document.querySelectorAll('.entries button')[{place}].click()")
            seen = use.value(OPENED)
            if seen != told.opened(row, state):
                break
        yield f"{about}: each next state and response of each entry", seen == told.opened(row, state), (row, state, seen)
        pressed = use.count(".entries [aria-pressed=true]"), use.count(".opened h4")
        use.value("document.querySelector('.entries [aria-pressed=true]').click()")
        yield f"{about}: one entry is open, and is closed again", pressed == (1, 1) and use.count(".opened h4") == 0, pressed


def map_of(use, name, more=""):
    """Opens the map of changes of a type. What it says of the whole."""
    use.open(f"#example=catalogue/{name}&screen=change{more}")
    use.value(PRESS_COMPARISON % EACH_ENTRY)
    use.until(MAPPED)
    return use.texts("#comparison p")


def told_maps(use):
    """What the map says of types whose numbers are known."""
    use.open("#example=types/idle&screen=change")
    links = "#compare-examples a"
    yield "the page names some", use.texts(links) == ["queue_1", "saturating_add_1_2", "window_2", "cas_3", "fetch_inc_mod4"], use.texts(links)
    use.value(f"document.querySelector('{links}').click()")
    well = use.until("document.getElementById('number').textContent === 'infinite'", 20) and "compare-part" in use.value("[...document.querySelectorAll('.part')].filter(it => it.checkVisibility()).map(it => it.id)")
    yield "and leads to them", well and 'name = "queue_1"' in use.table(), use.value("location.hash")
    said = map_of(use, "queue_1")
    hidden = use.value("!document.getElementById('compare-examples').checkVisibility()")
    yield "they are gone once there is a map", hidden, hidden
    stars = [[it.endswith("*") for it in row] for row in use.value(ENTRIES)]
    well = stars == [[True, False, True], [True, True, False], [False] * 3] and "It rests on 4 of the 9 entries" in said[0]
    yield "a queue rests on its first letter, and on nothing that deq does", well and said[0].endswith("It rests on no entry of deq."), (stars, said)
    yield "nothing raises it", said[-1] == "No change of one entry raises the number." and TWO_CHANGES not in use.text("comparison"), said
    map_of(use, "saturating_add_1_2")
    refusing = {"infinite if add2 in 1 leads to 1", "infinite if add2 in 2 leads to 2"}
    yield "a saturating add that refuses", refusing <= set(use.texts(RAISING)), use.texts(RAISING)
    map_of(use, "window_2")
    first = {"infinite if write0 in w1 leads to w1", "infinite if write1 in w0 leads to w0"}
    yield "a window that keeps the first write", first <= set(use.texts(RAISING)[:4]), use.texts(RAISING)
    said = map_of(use, "cas_3")
    yield "no change of a compare-and-swap lowers it", "It rests on none of the" in said[0] and "*" not in str(use.value(ENTRIES)), said
    map_of(use, "fetch_inc_mod4")
    use.value(PRESS_COMPARISON % TWO_CHANGES)
    well = use.until("/two entries/.test(document.getElementById('comparison').textContent)")
    yield "no two changes raise a counter", well and use.texts("#comparison p")[-1] == "No change of two entries raises the number.", use.texts("#comparison p")
    map_of(use, "swap_3")
    use.value(PRESS_COMPARISON % TWO_CHANGES)
    use.until(f"document.querySelectorAll({json.dumps(RAISING)}).length > 0")
    pairs = json.loads(called(["changes", "--pairs", "--as", "json", "-"], use.table())[0])["pairs"]
    told = [f"{it['number']} if {named(it['first'])}, and {named(it['second'])}" for it in pairs["raising"]]
    seen = use.texts(RAISING)
    yield "two changes raise a swap", seen == told[:MOST_CHANGES] and len(told) > MOST_CHANGES and not pairs["cut"], (seen, told)
    more = f"Show {MOST_CHANGES} more of {len(told) - MOST_CHANGES}"
    use.value(PRESS_COMPARISON % more)
    seen = use.texts(RAISING), use.value(f"[...document.querySelectorAll({json.dumps(RAISING)})].indexOf(document.activeElement)")
    yield "more of them are shown", seen == (told[: 2 * MOST_CHANGES], MOST_CHANGES), seen
    use.value(f"document.querySelectorAll({json.dumps(RAISING)})[1].click()")
    well = use.until("document.querySelectorAll('#comparison tbody tr').length === 2", 20)
    yield "both changes are made", well and native_number(use.table()) == str(pairs["raising"][1]["number"]), use.table()


def named(change):
    return "{operation} in {state} leads to {next} and answers {response}".format(**change)


def taken_changes(use):
    """A change of the map is taken, and taken back; a map that is late is not shown."""
    map_of(use, "window_2")
    before, raising = use.table(), use.texts(RAISING)
    for back in ("document.getElementById('undo').click()", "history.back()"):
        use.value(f"(it => {{ it.focus(); it.click(); }})(document.querySelector({json.dumps(RAISING)}))")
        well = use.until("document.querySelectorAll('#comparison tbody td').length === 3", 10) and use.count(".entries") == 0
        told = use.texts("#comparison tbody td, #comparison p")
        wanted = ["The number was 2, and is infinite now. The tables differ in 1 cell.", "w1", "ok → w10", "ok → w1"]
        yield "a change opens beside the table", well and told == wanted and native_number(use.table()) == "infinite", told
        focused = use.value("document.activeElement.textContent")
        yield "the focus is there", focused == "The table that was kept, and the present one", focused
        yield "the link holds it", use.until("location.hash.startsWith('#table=')", 10), use.value("location.hash")
        use.value("(() => { window.asked = 0; const { run } = Cnum.Runner.prototype; Cnum.Runner.prototype.run = function (words, ...more) "
                  "{ window.asked += words[0] === 'changes'; return run.call(this, words, ...more); }; })()")
        use.value(f"(() => {{ {back} }})()")
        well = use.until(MAPPED, 10) and use.table() == before and use.texts(RAISING) == raising
        yield f"{back} takes it back, and the map is there", well and use.value("window.asked") == 0, use.value("window.asked")
        focused = use.value("document.activeElement.textContent")
        yield "with the focus where it was", focused == raising[0] or back.startswith("document"), focused
    use.value("document.querySelector('.entries button').focus()")
    for key, wanted in (("ArrowRight", 1), ("ArrowDown", 8), ("ArrowLeft", 7), ("ArrowUp", 0)):
        focused = "[...document.querySelectorAll('.entries button')].indexOf(document.activeElement)"
        use.press_key(f".entries tbody tr:nth-child({1 + (use.value(focused) >= 7)}) td:nth-child({2 + use.value(focused) % 7}) button", key, altKey=True)
        yield f"Alt and {key} lead to the next entry", use.value(focused) == wanted, use.value(focused)
    use.value("document.querySelector('#compare-of button').click()")
    well = use.until("/number is 1/.test(document.getElementById('comparison').textContent)", 10)
    yield "another number has a map of its own", well and use.value(ENTRIES) == Changes(before, ["--without-read"]).grid(), use.value(ENTRIES)
    use.open("#example=catalogue/queue_1&view=changes")
    yield "it is a view of its own", use.until(MAPPED) and use.value("document.body.classList.contains('one-part')"), use.text("comparison")
    use.value("document.querySelector('.entries button').click()")
    use.value("document.querySelector('.opened button').click()")
    well = use.until("/was infinite, and is 2 now/.test(document.getElementById('comparison').textContent)", 10) and use.count(".entries") == 0
    yield "there a change opens too, with no map of its table", well, use.text("comparison")
    use.open("#example=types/idle&screen=change")
    use.value(PRESS_COMPARISON % EACH_ENTRY)
    yield "an entry that has no change", use.until(MAPPED) and use.texts("#comparison p")[0].startswith("The number is 1."), use.texts("#comparison p")
    use.give("x")
    yield "a table with a flaw has no map", use.count(".entries") == 0 and use.value((PRESS_COMPARISON % EACH_ENTRY).replace(".click()", ".disabled")), ""
    use.give(LONG)
    waits = "document.querySelector('#comparison > .buttons + div').checkVisibility()"
    use.value("Cnum.page.screens.open('change')")
    use.value(PRESS_COMPARISON % EACH_ENTRY)
    yield "a long search says for how long it runs", use.until(f"{waits} && /over 16256 changed tables runs for [1-9]/.test(document.getElementById('comparison').textContent)", 20), ""
    use.value(PRESS_COMPARISON % "Break it off")
    yield "it is broken off", use.until(f"!{waits}", 5) and use.count(".entries") == 0, ""
    use.value(PRESS_COMPARISON % EACH_ENTRY)
    use.until(waits)
    use.give(SLOT)
    yield "another table ends it", use.until(f"!{waits}", 5) and use.count(".entries") == 0, ""
    use.value(PRESS_COMPARISON % EACH_ENTRY)
    yield "and has a map", use.until(MAPPED) and use.value(ENTRIES) == Changes(SLOT, []).grid(), use.value(ENTRIES)
    use.give(LONG)
    use.value(PRESS_COMPARISON % EACH_ENTRY)
    use.until(waits)
    use.value(PRESS_COMPARISON % "Without each operation")
    yield "another question ends it", use.until("document.querySelectorAll('#comparison tbody tr').length > 2", 60) and use.count(".entries") == 0, use.text("comparison")


def maps_for_all(use):
    """The map of changes by names for screen readers, in contrast, on a phone, on paper and in German."""
    for lang in ("", "&lang=de"):
        for mode in ("light", "dark"):
            use.call("Emulation.setDeviceMetricsOverride", **PHONE)
            use.call("Emulation.setEmulatedMedia", features=[{"name": "prefers-color-scheme", "value": mode}])
            use.open(f"#example=catalogue/semaphore_3&view=changes{lang}")
            use.until(MAPPED)
            use.value("document.querySelectorAll('.entries button')[4].click()")
            width = use.value("document.documentElement.scrollWidth")
            yield f"the map on a phone{lang}, {mode}", use.count(".opened table") == 1 and width <= PHONE["width"], width
            faint = [it for it in use.value(CONTRAST) if it[0] < 4.5]
            yield f"its contrast{lang}, {mode}", faint == [], faint
            tints = use.value("['.rests', 'div:not(.rests)'].map(it => getComputedStyle(document.querySelector(`.entries td > ${it}`)).backgroundColor)")
            yield f"its tint{lang}, {mode}", tints[0] != tints[1], tints
    german = use.texts("#comparison p")[0], use.texts(RAISING)[0]
    well = german[0].startswith("Die Zahl ist 2. Sie beruht auf 2 der 8 Einträge") and german[1] == "unendlich, wenn up in 0 zu 0 führt"
    yield "the map in German", well, german
    use.call("Emulation.clearDeviceMetricsOverride")
    use.open("#example=catalogue/semaphore_3&screen=change")
    use.value(PRESS_COMPARISON % EACH_ENTRY)
    use.until(MAPPED)
    name = use.value("document.querySelector('.rests button').getAttribute('aria-label')")
    yield "an entry says that the number rests on it", name == "down in 0: no → 0; the number rests on it", name
    entries = use.value(ENTRIES)
    use.call("Emulation.setEmulatedMedia", media="print", features=[])
    printed = use.value("[...document.querySelectorAll('.entries tbody tr')].map(row => [...row.cells].slice(1).map(it => it.innerText.trim()))")
    lines = use.value("[...document.querySelectorAll('#comparison li')].map(it => it.innerText.trim())")
    yield "the map on paper", printed == entries and all(" if " in it for it in lines) and lines, (printed, lines)
    use.call("Emulation.setEmulatedMedia", media="", features=[])


# The states that are seen in two runs, those that are lit in their pictures, and the end.
RUNS_SEEN = """(seen => [
    ...[...document.querySelectorAll('.two-runs .run')].map(it => [...it.querySelectorAll('.state')].filter(seen).map(one => one.textContent)),
    [...document.querySelectorAll('.two-runs .node.lit')].map(it => it.dataset.state),
    seen(document.querySelector('.end-of-runs')),
])(it => getComputedStyle(it).visibility === 'visible')"""


def two_runs(use):
    """Why the number without reads is what it is: both runs of the adversary, stepped together. A program that has no such reasons
    shows none."""
    for name in ("queue_1", "queue_2", "window_3", "dec_mul"):
        use.open(f"#example=catalogue/{name}&reads=no")
        told, _, status = called(["why", "--without-read", "--as", "json", "-"], use.table())
        use.until("document.querySelector('#why').textContent")
        if status:
            yield f"no reasons of {name}", use.text("why") == "No reasons are shown for this number.", use.text("why")
            continue
        told = json.loads(told)
        choice = told["refuted"] and told["refuted"]["choices"][0]
        has_runs = bool(choice) and choice["process"] is not None
        yield f"the two runs of {name}", has_runs == bool(use.count(".two-runs")), told["refuted"]
        if not has_runs:
            continue
        runs = [[choice["start"], *(it["state"] for it in choice[side])] for side in ("a_first", "b_first")]
        wanted = [*runs, [it[-1] for it in runs], True]
        yield f"{name}: the whole runs", use.value(RUNS_SEEN) == wanted, (use.value(RUNS_SEEN), wanted)
        use.value("document.querySelector('.two-runs button').click()")
        for steps in range(max(map(len, runs))):
            seen = [it[: steps + 1] for it in runs]
            wanted = [*seen, [it[-1] for it in seen], steps + 1 == max(map(len, runs))]
            yield f"{name}: {steps} steps", use.value(RUNS_SEEN) == wanted, (use.value(RUNS_SEEN), wanted)
            use.press_key(".two-runs .buttons button", "ArrowRight")
        yield f"{name}: as it is printed", use.count("#why details") == 1, ""


def example_search(use):
    use.open()
    yield "compare and swap is found", "cas_3" in use.search("compare and swap"), use.search("compare and swap")
    yield "a name comes first", use.search("queue_2")[0] == "queue_2", use.search("queue_2")
    yield "by its literature", "cas_3" in use.search("loui abu amara") and "queue_2" not in use.search("loui abu"), ""
    yield "what is not there is said", use.search("nosuchword") == [] and "No example" in use.text("examples"), use.text("examples")
    use.search("three shot")
    use.press_key("#example", "Enter")
    yield "Enter takes the first one", use.has_number("3") and use.value("document.getElementById('example').value") == "three_shot", use.table()
    use.until("document.querySelectorAll('#example-number option').length > 5")
    use.value("(it => { it.value = '3'; it.dispatchEvent(new Event('change')); })(document.getElementById('example-number'))")
    names = use.texts("#examples [role=option] strong")
    wanted = [it for it in jobs.TABLES if not it.startswith("tests/") and native_number(jobs.TABLES[it].decode()) == "3"]
    yield "by their number", sorted(names) == sorted(it.split("/")[1] for it in wanted), names
    for _ in range(2):
        use.press_key("#example", "ArrowDown")
    chosen = use.value("document.querySelector('#examples [aria-selected=true] strong').textContent")
    yield "arrow keys go through them", chosen == names[1], (chosen, names)
    use.press_key("#example", "Escape")
    yield "Escape leaves all as it was", use.is_hidden("examples") and use.has_number("3"), use.text("number")


def schedules(use):
    """The protocol stepped by hand: the page shows what the program says of the same schedule."""
    source = random.Random(4)
    with tempfile.TemporaryDirectory() as room:
        for plan in ("certificate", "shortest"):
            use.open(f"#example=types/test_and_set&plan={plan}")
            for name in ("test_and_set", "three_shot", "sticky_bit", "counter_3"):
                use.choose(f"types/{name}")
                use.limit(4)
                certificate = found(name, 4, room)
                n = json.loads(pathlib.Path(certificate).read_text())["number"]
                words, starts = ["agree", "--steps", certificate], ["bot" if name == "three_shot" else first_state(name)] * n
                if plan == "shortest":
                    words, starts = ["agree", "--shortest", "--processes", str(n), "--steps", "-"], starts_of_shortest(name, n)
                for turn in range(13):
                    about = f"{name}, {plan}, schedule {turn}"
                    yield from one_schedule(use, about, words, TYPES[name], random_acts(source, n), n, starts)
    count = use.count(".log li")
    use.press("Undo")
    yield "undo takes an act back", use.until(f"document.querySelectorAll('.log li').length === {count - 1}"), ""
    for label in ("Let all run", "Random run"):
        use.press("Start over")
        use.until("document.querySelectorAll('.log li').length === 0")
        use.press(label)
        yield label, use.until(DECIDED), use.texts(".decision")


# Types, each with a number of processes, for the shortest plan: two and more teams at a node, one node and several.
PLANS = [("types/sticky_bit", 2), ("types/sticky_bit", 4), ("types/sticky_bit", 8), ("types/three_shot", 3), ("catalogue/queue_2", 8)]
PLANS += [("catalogue/cas_4", 8), ("catalogue/cas_9", 8)]
CHOOSE_PLAN = "(it => { it.focus(); it.value = %r; it.dispatchEvent(new Event('change')); })(document.getElementById('plan'))"
# The width of the tournament, how far it is wider than its place, how far it is made smaller or larger, and the size of its letters.
TREE_SIZES = """(it => [
    Number(it.getAttribute('width')),
    it.parentElement.scrollWidth - it.parentElement.clientWidth,
    it.getBoundingClientRect().width / Number(it.getAttribute('width')),
    getComputedStyle(it.querySelector('text')).fontSize,
])(document.querySelector('.tournament'))"""
# The start state and the marks of teams in the picture of the object that was used last.
OBJECT_SHOWN = """(it => [
    it.querySelector('.start').dataset.state,
    [...new Set([...it.querySelectorAll('.badge')].map(one => one.textContent))].sort().join(''),
])(document.querySelector('#protocol svg.states'))"""


def size_of_plan(told):
    """What the page says of the size of a plan."""
    objects = "one object" if told["objects"] == 1 else f"{told['objects']} objects"
    return f"A process takes at most {told['steps']} steps, at {objects}. "


def shortest_plans(use):
    """The shortest plan, which the page shows first, against the program: its size, its steps, its tree and its objects."""
    for path, n in PLANS:
        use.open(f"#example={path}&limit={n}")
        about = f"{path} for {n}"
        told = json.loads(called(["show", "--shortest", "--processes", str(n), "--as", "json", "-"], use.table())[0])
        yield f"{about}: its size", use.text("plan-said").startswith(size_of_plan(told)), use.text("plan-said")
        steps = [f"0 of {it['steps']} steps, undecided" for it in told["paths"]]
        yield f"{about}: the steps of each process", use.texts(".decision") == steps, (use.texts(".decision"), steps)
        starts = [f"starts in {it['start']}" for it in told["nodes"]]
        yield f"{about}: the starts of its objects", use.texts("#protocol td:nth-child(2)") == starts, use.texts("#protocol td:nth-child(2)")
        most = max(len(it["teams"]) for it in told["nodes"])
        registers = [f"Register {it}" for it in "ABCDEFGH"[:most]]
        yield f"{about}: a register for each team", use.texts("#protocol th[scope=col]")[2:-1] == registers, use.texts("#protocol th")
        lacking = sum(most - len(it["teams"]) for it in told["nodes"])
        yield f"{about}: where there is none", use.texts("#protocol td").count("–") == lacking, use.texts("#protocol td")
        if n > 2:
            yield from one_tree(use, about, told)


def one_tree(use, about, told):
    """The tree of a plan in the page: each place with its team and its operation, no text on another, and no need to scroll."""
    operations = {(node["node"], it["process"]): it["operation"] for node in told["nodes"] for it in node["processes"]}
    places = [(it["process"], place) for it in told["paths"] for place in it["places"]]
    wanted = [f"{'ABCDEFGH'[place['team']]} {process}: {operations[place['node'], process]}" for process, place in places]
    shown = use.texts(".tournament .label text")
    yield f"{about}: its tree", sorted(shown) == sorted(wanted), (shown, wanted)
    yield f"{about}: no text of it lies on another", use.value(TEXTS_MEET % ".tournament") == [], use.value(TEXTS_MEET % ".tournament")
    use.value(SHOW_RUN)
    use.value(OPEN_ALL)
    sizes = use.value(TREE_SIZES)
    yield f"{about}: it fits its place", sizes[0] <= 1180 and sizes[1] <= 0 and 0.5 < sizes[2] <= 1, sizes


def chosen_plans(use):
    """The plan of the certificate by choice, links to either plan, and the plan where there is no certificate for so many."""
    use.open("#example=types/sticky_bit&limit=8&screen=run")
    use.value(CHOOSE_PLAN % "certificate")
    well = use.until("document.getElementById('plan-said').textContent === 'A process takes at most 28 steps, at 7 objects.'", 20)
    yield "the plan of the certificate", well, use.text("plan-said")
    steps = [f"0 of {4 * min(it, 7)} steps, undecided" for it in range(1, 9)]
    yield "with its steps", use.texts(".decision") == steps, use.texts(".decision")
    yield "and its link", use.until("location.hash === '#example=types/sticky_bit&limit=8&plan=certificate&screen=run'", 5), use.value("location.hash")
    use.press_code("Digit1")
    use.do("await Cnum.page.protocol.update();")
    yield "a key in the choice is no step", use.value("document.activeElement.id") == "plan" and use.count(".log li") == 0, use.texts(".log li")
    use.value(CHOOSE_PLAN % "shortest")
    well = use.until("document.getElementById('plan-said').textContent.startsWith('A process takes at most 9 steps, at 7 objects. No ')", 20)
    yield "and the shortest again", well and use.until("location.hash === '#example=types/sticky_bit&limit=8&screen=run'", 5), use.value("location.hash")
    for given, plan, log in (("run=2,1", "certificate", "process 2: writes 9 to B of node 1"), ("plan=shortest&run=2,1", "shortest", "process 2: writes 9 to B of node 0")):
        use.open(f"#example=types/sticky_bit&limit=3&inputs=7,8,9&{given}")
        said = use.value("document.getElementById('plan').value"), use.texts(".log li")[:1]
        yield f"a link with {given}", said == (plan, [log]), said
    yield from plans_without_certificate(use)
    yield from plans_without_reads(use)
    yield from parts_of_plans(use)


def plans_without_certificate(use):
    use.open("#example=catalogue/cas_9&plan=shortest&run=0,1,2,3,4,5,6,7")
    said = use.text("limit-said"), use.count("#limit option")
    yield "more processes than the certificate has", said == ("The protocol is for 8 processes, as you chose. It can be for up to 8.", 7), said
    yield "which is said of it", use.text("certificate-said") == "The certificate is for 5: one for more would be too long.", use.text("certificate-said")
    letters = use.texts(".space-time .badge"), use.texts("#protocol td")[1:9]
    yield "eight teams by their letters", letters == (list("ABCDEFGH"), [str(10 * it) for it in range(1, 9)]), letters
    use.value(CHOOSE_PLAN % "certificate")
    well = use.until("document.querySelectorAll('.process').length === 5", 20)
    said = use.text("limit-said"), use.count("#limit option")
    yield "as many as the certificate has", well and said == ("The protocol is for 5 processes, as you chose. It can be for up to 5.", 4), said
    use.open("#example=catalogue/cas_9&limit=6")
    said = use.count(".process"), use.text("limit-said"), use.value("Cnum.page.certificateText().then(it => JSON.parse(it).limit)")
    yield "fewer, and still more than the certificate has", said[0] == 6 and said[1].startswith("The protocol is for 6 processes, as you chose.") and said[2] == 5, said


def plans_without_reads(use):
    """The shortest plan without reads by choice and by a link, against the program: for fewer processes than can agree with reads, of processes
    that look by an operation, and where there is none."""
    use.open("#example=catalogue/queue_2&reads=no")
    use.value(CHOOSE_PLAN % "without_reads")
    told = json.loads(called(["show", "--without-read", "--as", "json", "-"], use.table())[0])
    said = "document.getElementById('plan-said').textContent"
    wanted = f"{said}.startsWith({json.dumps(size_of_plan(told) + 'No plan tree')}) && {said}.includes('without reads for so many processes')"
    well = use.until(wanted, 20)
    yield "the plan without reads", well and use.text("protocol-of").startswith("This protocol reads no state"), use.text("plan-said")
    said = f"The protocol is for {told['processes']} processes, the most for which there is a plan tree without reads."
    yield "for as many processes as it can", use.text("limit-said") == said and use.count(".process") == told["processes"], use.text("limit-said")
    link = "#example=catalogue/queue_2&reads=no&plan=without_reads"
    yield "and its link", use.until(f"location.hash === '{link}'", 5), use.value("location.hash")
    use.open("#example=types/sticky_bit&plan=without_reads")
    use.give(LOOKED_AT.text())
    yield "that of processes that look", "a process looks behind its operation by another one" in use.text("plan-said"), use.text("plan-said")
    use.limit(3)
    words, source = ["agree", "--without-read", "--processes", "3", "--steps", "-"], random.Random(6)
    for turn in range(5):
        about = f"processes that look, schedule {turn}"
        yield from one_schedule(use, about, words, LOOKED_AT.text(), random_acts(source, 3), 3, [LOOKED_AT.states[0]] * 3)
    use.give(BLIND.text())
    refused = "Without reads no two processes can agree by a plan tree of the type."
    yield "where there is none", use.text("protocol").startswith(refused) and not use.is_hidden("plan-part"), use.text("protocol")
    use.value(CHOOSE_PLAN % "shortest")
    yield "and there is another one", use.until("document.querySelectorAll('.process').length === 3", 20), use.count(".process")


def parts_of_plans(use):
    use.open("#example=types/three_shot&plan=shortest&run=0,0")
    yield "the object of a node has its own start", use.value(OBJECT_SHOWN) == ["a2", "AB"], use.value(OBJECT_SHOWN)
    use.slide(1)
    yield "and that of the root too", use.value(OBJECT_SHOWN) == ["bot", "AB"], use.value(OBJECT_SHOWN)
    for name, said in (("types/sticky_bit", "This protocol reads no state"), ("catalogue/queue_2", "This protocol reads the states")):
        use.open(f"#example={name}&reads=no")
        yield f"whether the plan of {name} reads", use.text("protocol-of").startswith(said) and not use.is_hidden("protocol-of"), use.text("protocol-of")
    use.open("#example=types/idle")
    yield "one process alone has no plan", use.is_hidden("plan-part") and use.text("plan-said") == "", use.text("plan-said")
    use.open("#example=types/sticky_bit&crashes=yes&limit=2")
    yield "processes that come back have no choice of a plan", use.is_hidden("plan-part") and use.text("plan-said") == "", use.text("plan-said")


def one_schedule(use, about, words, table, acts, n, starts):
    """The acts by the buttons of the page, against the program. `starts` are the start states of the nodes."""
    inputs = ",".join(str(10 * (p + 1)) for p in range(n))
    use.do("await Cnum.page.protocol.set([]);")
    use.value(ACTS % json.dumps(acts))
    schedule = ",".join(str(p) for p, stops in acts if not stops) or "none"
    lines = called([*words, inputs, schedule], table)[0].decode().splitlines()
    told = [it.split(", ")[1].removeprefix("decides ") for it in use.texts(".decision")]
    yield f"{about}: the decisions", [f"{p}: {it}" for p, it in enumerate(told)] == lines[-n:], (told, lines[-n:])
    going = [told[p] for p in range(n) if [p, True] not in acts]
    yield f"{about}: agreement", len({*told} - {"undecided"}) == 1 and "undecided" not in going, told
    shown, wanted = use.texts(".log li"), log_of(acts, lines, table, starts)
    yield f"{about}: a line for each act", shown == wanted, (shown, wanted)


def random_acts(source, n):
    """Steps and stops of n processes, [process, whether it stops] each, enough for all who go on to decide."""
    acts, going = [], list(range(n))
    while len(acts) < 8 * n * n:
        process = source.choice(going)
        stops = len(going) > 1 and source.random() < 0.04
        acts.append([process, stops])
        if stops:
            going.remove(process)
    return acts


def first_state(name):
    return tomllib.loads(TYPES[name])["states"][0]


def starts_of_shortest(name, n):
    """The start state of each node of the shortest plan, by the program."""
    told = called(["show", "--shortest", "--processes", str(n), "--as", "json", "-"], TYPES[name])[0]
    return [it["start"] for it in json.loads(told)["nodes"]]


def with_letters(line):
    """The line of a step along a plan tree, with the letter of each team in place of its number."""
    line = re.sub(r"\b(to|from) team ([0-7])\b", lambda it: f"{it[1]} {'ABCDEFGH'[int(it[2])]}", line)
    return re.sub(r"team ([0-7])$", lambda it: f"team {'ABCDEFGH'[int(it[1])]}", line)


def log_of(acts, lines, table, starts):
    """What the page is to tell of these acts: the program's line of each step, with the state before and after an operation. A
    process that has decided takes no more steps, and cannot stop."""
    type_ = tomllib.loads(table)
    moves = {it["name"]: dict(zip(type_["states"], it["next"])) for it in type_["operation"]}
    states, decided, told, steps = {}, set(), [], iter(lines)
    for process, stops in acts:
        line = "stops for good" if stops else with_letters(next(steps)[3:])
        if process in decided:
            continue
        decided |= {process} if line.startswith("decides") else set()
        applied = re.match(r"applies (\w+) at node (\d+)", line)
        if applied:
            before = states.get(applied[2], starts[int(applied[2])])
            states[applied[2]] = moves[applied[1]][before]
            line += f" ({before} → {states[applied[2]]})"
        told.append(f"process {process}: {line}")
    return told


def lives_of(name, n):
    """The lives of n processes at this type, of its first recording witness, as the tests have them."""
    table = Table(TYPES[name])
    return Lives(table, *next(recording_witnesses(table, n)))


def acts_of_lives(source, lives):
    """Steps and crashes at random that count, and then steps of each process until it has decided; and what is told of each."""
    inputs = [10 * (p + 1) for p in range(lives.n)]
    world, acts, told = lives.first_world(inputs), [], []
    chosen = [(source.randrange(lives.n), source.random() < 0.15) for _ in range(8 * lives.n)]
    for process, crashes in [*chosen, *((p, False) for p in range(lives.n) for _ in range(6 * lives.n))]:
        if not crashes and len(world[2][process]) == 1:
            continue
        acts.append((process, crashes))
        told.append((process, told_event(lives, world, process, crashes)[0]))
        world = lives.crash(world, process, inputs) if crashes else lives.step(world, process)
    return acts, told, world


CRASH_ACTS = """(async acts => {
    for (const [process, crashes] of acts) {
        document.querySelectorAll('.process')[process].querySelectorAll('.buttons button')[crashes ? 2 : 0].click();
    }
    await Cnum.page.protocol.update();
})(%s)"""
LOG_WITHOUT_CHANGES = """[...document.querySelectorAll('.log li')].map(it => it.firstChild.textContent)"""
CHANGES = """[...document.querySelectorAll('.log .change')].map(it => it.textContent.trim())"""
CRASHED = "#example=types/sticky_bit&crashes=yes&inputs=10,20,30&run=2,2,2,2,2,2,2,c2,0,2,2,2,2,2,2,2,2,c2"


def crashes(use):
    """Processes that crash and come back: the page shows what the tests make of the same acts, and what a process forgot."""
    source = random.Random(5)
    use.open()
    use.value("document.getElementById('come-back').click()")
    well = use.until("/no protocol lets two agree/.test(document.getElementById('protocol').textContent)") and use.count(".process") == 0
    yield "where the recoverable number is 1, no protocol lets two agree", well, use.text("protocol")
    for name, n in (("sticky_bit", 2), ("sticky_bit", 3), ("three_shot", 2)):
        use.choose(f"types/{name}")
        use.limit(n)
        lives = lives_of(name, n)
        yield f"{name}: so many processes", use.count(".process") == n and f"for {n} processes" in use.text("come-back-said"), use.text("come-back-said")
        for turn in range(6):
            acts, told, world = acts_of_lives(source, lives)
            use.do("await Cnum.page.protocol.set([]);")
            use.value(CRASH_ACTS % json.dumps(acts))
            shown, wanted = use.value(LOG_WITHOUT_CHANGES), [f"process {p}: {it}" for p, it in told]
            yield f"{name} for {n}, run {turn}: a line for each act", shown == wanted, (shown, wanted)
            decided = [re.search(r"decides \d+", it)[0] for it in use.texts(".decision")]
            yield f"{name} for {n}, run {turn}: the decisions", decided == [f"decides {it[0]}" for it in world[2]], (decided, world)
    for _ in range(5):
        use.do("await Cnum.page.protocol.set([]);")
        use.press("Random run")
        decisions = use.until(DECIDED) and use.value("[...new Set(Cnum.page.protocol.events.filter(it => it.kind === 'decides').map(it => it.value))].length")
        yield "a random run ends, and all decisions in it are one", decisions in (0, 1), decisions


def forgotten(use):
    """What a process forgot, in the log, at the process, in the diagram and in the tournament; undo, the slider, keys and links."""
    use.open(CRASHED)
    told = use.value(CHANGES)
    yield "each crash tells what is forgotten", told[1::2] == ["(forgets: node 0, value 30)", "(forgets: decision 30)"], told
    seen = use.texts(".memory")[2], use.texts(".forgot"), use.texts(".decision")[2]
    wanted = "Memory: node 1, value 30", ["", "", "Forgot: decision 30"], "0 of at most 12 steps, undecided, crashed 2 times"
    yield "a process knows nothing but its proposal again", seen == wanted, seen
    yield "objects and registers keep their contents", use.texts("#protocol td")[:3] == ["unset → one, put1 answered one", "10", "30"], use.texts("#protocol td")
    use.value(TO_THE_BEGINNING)
    marks = use.texts(".space-time .crashes"), use.count(".space-time .bolt"), use.value(TEXTS_MEET % ".space-time")
    yield "the diagram marks each crash", marks == (["crashes"] * 2, 2, []), marks
    places = use.texts(".tournament .lit"), use.texts(".tournament .forgotten")
    yield "the tournament tells where each is", places == (["A 0: put0", "A 1: put0", "B 2: put1"], []), places
    use.slide(8)
    yield "the slider leads back", use.texts(".forgot")[2] == "Forgot: node 0, value 30", use.texts(".forgot")
    yield "the tournament tells the place that is forgotten", use.texts(".tournament .forgotten") == ["B 2: put1"], use.texts(".tournament .forgotten")
    use.press("Undo")
    yield "a crash is undone", use.until("document.querySelectorAll('.log li').length === 7") and use.texts(".forgot")[2] == "", use.texts(".forgot")
    yield "the link says so", use.until("location.hash.endsWith('&crashes=yes&inputs=10,20,30&run=2,2,2,2,2,2,2')", 5), use.value("location.hash")
    use.value("document.querySelector('.process button').focus()")
    for code, kind in (("KeyC", "looks"), ("Digit2", "crashes"), ("Digit2", "writes"), ("KeyC", "writes"), ("KeyU", "crashes"), ("Shift Digit1", "stops")):
        use.press_code(code.split()[-1], code.startswith("Shift"))
        use.do("await Cnum.page.protocol.update();")
        last = use.value("Cnum.page.protocol.events.slice(0, Cnum.page.protocol.position).pop().kind")
        yield f"key {code}", last == kind, last
    buttons = use.value("[...document.querySelectorAll('.process')].map(it => [...it.querySelectorAll('.buttons button')].map(one => one.disabled))")
    yield "who has stopped does not crash", buttons == [[False] * 3, [True] * 3, [False] * 3], buttons
    use.open("#example=types/three_shot&crashes=yes")
    yield "as many processes as the recoverable number", use.count(".process") == 2 and use.text("limit-said") == "", use.text("limit-said")
    use.value(SHOW_RUN)
    use.value("document.getElementById('come-back').click()")
    well = use.until("document.querySelectorAll('.process').length === 3") and use.text("limit-said").startswith("The protocol is for 3")
    yield "and back", well and use.until("location.hash === '#example=types/three_shot&screen=run'", 5), use.value("location.hash")
    use.open(f"{CRASHED}&lang=de")
    yield "in German", use.texts(".log li")[7].startswith("Prozess 2: stürzt ab (vergisst: Knoten 0, Wert 30"), use.texts(".log li")
    for wrong in ("#example=types/test_and_set&crashes=yes&run=0,1", "#example=types/three_shot&crashes=yes&inputs=1,2,3&run=0", "#example=types/idle&run=c0"):
        use.open(wrong)
        yield f"refused: {wrong}", use.text("trouble").startswith("This link cannot be shown: ") and use.is_hidden("content"), use.text("trouble")


def pictured_runs(use):
    """A run as a picture: the states of objects, the space-time diagram, the slider, the keys."""
    use.open("#example=types/three_shot&run=1,1,2,2,0,x0,1")
    yield "what became of the objects", use.texts("#protocol td:nth-child(2)") == OBJECTS, use.texts("#protocol td:nth-child(2)")
    yield "the state of the object is lit", use.value(LIT) == [["a2"], ["y"]] * 2, use.value(LIT)
    yield "the diagram has each act", use.texts(".space-time .mark-of-step text:first-of-type") == ACTS_SHOWN, use.texts(".space-time text")
    use.value(TO_THE_BEGINNING)
    yield "no text of it lies on another", use.value(TEXTS_MEET % ".space-time") == [], use.value(TEXTS_MEET % ".space-time")
    use.value(OPEN_ALL)
    yield "nor in the tournament", use.value(TEXTS_MEET % ".tournament") == [], use.value(TEXTS_MEET % ".tournament")
    use.slide(0)
    lit = use.value(LIT)
    yield "before the first operation, the picture of the states shows no run", lit[0] == [] and lit[2] == ["bot"], lit
    use.slide(2)
    told = use.texts(".log li")
    yield "the slider leads to a place of the run", len(told) == 2 and use.value(LIT)[0] == ["a1"], (told, use.value(LIT))
    use.slide(7)
    yield "and back to its end", use.count(".log li") == 7, use.texts(".log li")
    kept = use.until("location.hash.endsWith('run=1,1,2,2,0,x0,1')", 5)
    yield "the link has the run up to that place", kept, use.value("location.hash")
    use.do("await Cnum.page.protocol.runAll();")
    pressable = use.value("[...document.querySelectorAll('.process button')].filter(it => !it.disabled).length")
    edge = "(it => it.querySelector('.heads text').getBoundingClientRect().left - it.getBoundingClientRect().left)"
    edge = use.value(f"{edge}(document.querySelector('.space-time').parentElement)")
    yield "the names of the processes stay in view", 0 <= edge < 30, edge
    yield "who has decided or stopped takes no step and cannot stop", pressable == 0, pressable
    with tempfile.TemporaryDirectory() as room:
        for part, index, beginning in (("run", 0, b"<svg"), ("run", 1, b"\x89PNG"), ("tournament", 2, b"<svg"), ("tournament", 3, b"\x89PNG")):
            name, content = use.offered(f"{SAVE_BUTTONS}[{index}].click()")
            well = content.startswith(beginning) and name == f"three_shot_3_{part}.{'png' if index % 2 else 'svg'}"
            yield f"the picture {name} is saved", well, (name, content[:9])
        for form, beginning in (("svg", b"<svg"), ("png", b"\x89PNG")):
            name, content = use.offered(f"document.getElementById('picture-{form}').click()")
            yield f"the picture {name} is saved", content.startswith(beginning) and name == f"three_shot_3_states.{form}", content[:9]
    use.value("(it => { it.value = 'abc'; it.dispatchEvent(new Event('change')); })(document.getElementById('input-1'))")
    told = use.text("input-1-wrong"), use.value("document.getElementById('input-1').getAttribute('aria-invalid')")
    yield "a proposal that is no number is marked", "is no number" in told[0] and told[1] == "true", told
    yield "and changes nothing", use.value("Cnum.page.protocol.inputs[1]") == "20", ""


def adversaries(use):
    """Schedules that are tried, with how many configurations there are, counted by hand for two processes at a test-and-set bit. Where
    both have used it, each may have been first; else it is known who was. With four steps each, that are 9 places twice and 16 once;
    with three, 4 twice and 12 once."""
    for plan, steps, count in (("certificate", 4, 34), ("shortest", 3, 20)):
        use.open(f"#example=types/test_and_set&plan={plan}")
        use.press("Try to break it")
        wanted = f"In every schedule, wherever processes stop, all that decide decide the same value. All {count} states"
        yield f"all schedules of two, {plan}", use.until(TRIED, 60) and use.trial().startswith(wanted), use.trial()
        yield "the one with the most turns is shown", use.count(".log li") == 2 * steps, use.texts(".log li")
    use.choose("types/three_shot")
    use.press("Try to break it")
    yield "schedules of three", use.until(TRIED, 120) and use.trial().startswith("In every schedule, wherever processes stop, all"), use.trial()
    use.open("#example=catalogue/cas_3&limit=5&plan=certificate")
    use.press("Try to break it")
    yield "schedules of five, at random", use.until(TRIED, 120) and use.trial().startswith("500 schedules, chosen at random, agree. There are too many") and "at most 2,500" in use.trial(), use.trial()
    for n in (2, 3):
        use.open(f"#example=types/sticky_bit&limit={n}&crashes=yes")
        use.press("Try to break it")
        well = use.until(TRIED, 900) and use.trial().startswith("In every schedule, wherever processes stop and however often they crash")
        yield f"schedules of {n} that come back", well, use.trial()
        shown = "Cnum.page.protocol.events.filter(it => it.kind === 'crashes').length"
        yield "the one that is shown has crashes", use.until(f"{shown} > 1", 5), use.value(shown)
    use.choose("catalogue/cas_3")
    use.limit(4)
    use.press("Try to break it")
    yield "schedules of four that come back", use.until(TRIED, 120) and use.trial().startswith("500 schedules with crashes"), use.trial()
    use.press("Try to break it")
    use.until("/^[1-9]/.test(document.querySelector('.trial').textContent)")
    use.press("Break it off")
    well = re.fullmatch(r"The trial was broken off after [1-9]\d* schedules, all of which agree\.", use.trial())
    yield "it can be broken off, and tells what was tried", well, use.trial()
    use.open("#example=types/three_shot&crashes=yes")
    use.press("Try to break it")
    use.choose("types/sticky_bit")
    yield "another table ends it", (use.count(".process"), use.trial(), use.texts(".log li")) == (3, "", []), use.trial()


def keys(use):
    """The protocol stepped by keys."""
    use.open("#example=types/three_shot&screen=run")
    yield "nothing has the focus", use.value("document.activeElement === document.body"), ""
    counts = (("Digit1", 1), ("Shift Digit2", 2), ("Digit2", 2), ("Digit7", 2), ("Numpad0", 3), ("KeyU", 2))
    for code, wanted in counts:
        use.press_code(code.split()[-1], code.startswith("Shift"))
        well = use.until(f"document.querySelectorAll('.log li').length === {wanted}", 5)
        yield f"key {code}", well, use.texts(".log li")
    use.value("document.getElementById('input-0').focus()")
    use.press_code("Digit1")
    use.do("await Cnum.page.protocol.update();")
    yield "a key in a field is text", use.count(".log li") == 2, use.texts(".log li")
    use.value("document.querySelectorAll('.process button')[0].focus()")
    for _ in range(4):
        use.press_code("Digit0")
        use.do("await Cnum.page.protocol.update();")
    use.press_code("Digit1")
    yield "the keys go on after a decision", use.until("document.querySelectorAll('.log li').length === 7", 5), use.texts(".log li")


def phone(use):
    """The protocol on a phone, and a key of the browser's own."""
    use.call("Emulation.setDeviceMetricsOverride", **PHONE)
    use.open("#example=types/three_shot&run=0,1,2,0,1,2,1,1")
    seen = use.value(FROM_BUTTON_TO_LOG)
    yield "the log is seen at each button", seen and all(seen), seen
    use.value("document.querySelector('.process button').focus()")
    use.key("1", 49, name="Digit1")
    yield "a key", use.until("document.querySelectorAll('.log li').length === 9", 5), use.texts(".log li")
    use.call("Emulation.clearDeviceMetricsOverride")


def links(use):
    use.open("#example=types/three_shot&limit=2&inputs=7,8&run=1,1,0,x0")
    shown = use.text("number"), use.value("Cnum.page.certificateText().then(it => JSON.parse(it).limit)"), use.texts(".decision")
    yield "a link shows fewer processes than can agree", shown[:2] == ("3", 2) and len(shown[2]) == 2, shown
    yield "and keeps that", use.until("location.hash.includes('&limit=2&')", 5), use.value("location.hash")
    use.open("#example=types/sticky_bit&inputs=7,8,9&run=2,0")
    yield "inputs without a limit tell how many processes there are", use.count(".process") == 3, use.count(".process")
    use.open("#example=types/three_shot&limit=4&inputs=7,8,9&run=2,2,x2,0,0,0,0")
    yield "a link shows an example", use.text("number") == "3", use.text("number")
    yield "a limit that is no smaller is none", use.until("!location.hash.includes('limit')", 5), use.value("location.hash")
    told = use.texts(".decision")
    yield "and its run", told[0].startswith("4 of 4 steps, decides") and told[2] == "2 of 8 steps, undecided, stopped", told
    use.open()
    use.give(SLOT.replace('"b", "b", "b"', '"b", "a", "b"'))
    kept = use.until("location.hash.startsWith('#table=')")
    link, text = use.value("location.hash"), use.table()
    use.open(link)
    yield "a link holds a table", kept and use.table() == text, link
    use.value("document.getElementById('skip').click()")
    yield "the skip link keeps the table", use.value("location.hash") == link and use.table() == text, use.value("location.hash")
    use.open()
    use.value("Cnum.page.address.copy()")
    yield "a link of a file says so", "on this machine only" in use.text("link-said"), use.text("link-said")
    for number, damaged in enumerate((link[:-6], f"{link}&limi=4", "#table=%%%", "#table=AAAA", *WRONG_LINKS)):
        use.open(damaged)
        told = use.text("trouble")
        yield f"damaged link {number}", told.startswith("This link cannot be shown: ") and use.is_hidden("content"), (damaged, told)
    use.value("document.querySelector('#trouble a').click()")
    well = use.has_number("2") and not use.is_hidden("content") and use.text("trouble") == ""
    yield "from there one begins with an example", well, use.text("trouble")
    parts = {"number": "number-part", "why": "why-part", "states": "picture-part", "run": "protocol-part", "pairs": "compare-part"}
    parts.update({"exercise": "sheet-part", "solution": "sheet-part"})
    for view, part in parts.items():
        use.open(f"#example=types/three_shot&run=0,1&view={view}")
        shown = use.value("[...document.querySelectorAll('.part')].filter(it => it.checkVisibility()).map(it => it.id)")
        yield f"the view {view}", shown == [part] and use.value("location.hash").endswith(f"view={view}"), shown


def one_file(use):
    """The page in one file, alone in an empty folder, and saved with a table and a run."""
    with tempfile.TemporaryDirectory() as room:
        alone = pathlib.Path(room, "cnum.html")
        alone.write_bytes((TOP / "web/cnum.html").read_bytes())
        times, patience = [], Patience(FIRST)
        for _ in range(3):
            began = time.monotonic()
            use.open(page=alone)
            yield "it answers alone in a folder", use.has_number("2"), use.text("trouble")
            times.append(time.monotonic() - began)
        yield f"in less than {FIRST} s", min(times) < patience.bound(), times
        for run in ("run=0,1,x1", "crashes=yes&run=0,1,c1", "reads=no&run=0,1"):
            use.open(f"#example=types/three_shot&{run}", page=alone)
            use.value("Cnum.page.protocol.update()")
            names = [use.saved(room, "Cnum.page.address.savePage()")]
            before = use.seen()
            use.open(page=names[0])
            yield f"a saved page shows its table and {run}", use.seen() == before and names[0].name == "three_shot.html", use.seen()
            names.append(use.saved(room, "Cnum.page.address.savePage()", "again_"))
            yield "it can be saved again, the same", names[0].read_bytes() == names[1].read_bytes(), ""
        use.give(SLOT)
        use.open(page=use.saved(room, "Cnum.page.address.savePage()"))
        yield "a saved page with a table of one's own", use.table() == SLOT and use.has_number("1"), use.table()


def on_a_server(use):
    """The page in one file on a server, and in a frame of another page."""
    with tempfile.TemporaryDirectory() as room:
        pathlib.Path(room, "cnum.html").write_bytes((TOP / "web/cnum.html").read_bytes())
        pathlib.Path(room, "course.html").write_text(f'<!doctype html><iframe src="cnum.html{FRAMED}"></iframe>')
        server = http.server.ThreadingHTTPServer(("127.0.0.1", 0), functools.partial(Quiet, directory=room))
        threading.Thread(target=server.serve_forever, daemon=True).start()
        address = f"http://127.0.0.1:{server.server_port}"
        use.browser.open(f"{address}/cnum.html")
        yield "it answers from a server", use.until(READY) and use.has_number("2"), ""
        use.value("Cnum.page.address.copy()")
        yield "its link is for everyone", "this machine" not in use.text("link-said"), use.text("link-said")
        use.browser.open(f"{address}/course.html")
        sections = "[...frames[0].document.querySelectorAll('.part')].filter(it => it.checkVisibility()).map(it => it.id).join()"
        yield "a part of it stands in a frame", use.until(f"frames[0].{READY} && {sections} === 'protocol-part'"), ""
        whole = use.value("frames[0].document.getElementById('whole-link').href")
        yield "with a link to the whole page", whole.endswith("/cnum.html#example=types/three_shot&screen=run"), whole
        server.shutdown()


class Quiet(http.server.SimpleHTTPRequestHandler):
    """A server that reports nothing."""

    def log_message(self, *_):
        pass


def missing_parts(use):
    """A folder that lacks a part of the page, or all of them."""
    parts = [pathlib.Path(it) for it in re.findall(r'(?:src|href)="([\w/]+\.(?:js|css))"', (TOP / "web/index.html").read_text())]
    for absent in ([it] for it in (*parts, None)):
        absent = absent if absent[0] else parts
        with tempfile.TemporaryDirectory() as room:
            for it in [pathlib.Path("index.html"), *(it for it in parts if it not in absent)]:
                pathlib.Path(room, it).parent.mkdir(exist_ok=True)
                pathlib.Path(room, it).write_bytes((TOP / "web" / it).read_bytes())
            use.browser.open("about:blank")
            use.browser.open(pathlib.Path(room, "index.html").as_uri())
            use.until("document.readyState === 'complete'")
            told = use.text("trouble")
            well = told.startswith("The folder of this page lacks ") and all(it.name in told for it in absent)
            yield f"without {absent[0] if len(absent) == 1 else 'any part'}", well and use.is_hidden("content"), told


def certificates(use):
    use.open()
    whole = called(["find"], TYPES["test_and_set"])[0].decode()
    unread = '{"at_least":2,"at_most":null,"least":{"visible":[0,[0],[0]]},"most":null,"type":"test_and_set","version":4}'
    stocks = '{"at_least":2,"at_most":2,"least":{"witness":[0,[0],[0]]},"most":[[0,[0],0,[0],0]],"type":"test_and_set","version":3}'
    yield "the certificate is the program's", use.value("Cnum.page.certificateText()") == whole, ""
    drop = """((name, text) => {
        const dataTransfer = new DataTransfer();
        dataTransfer.items.add(new File([text], name));
        document.getElementById('claim').dispatchEvent(new DragEvent('drop', { dataTransfer, bubbles: true, cancelable: true }));
    })(%s)"""
    for text, told in (
        (whole, "claim.json is right: it is a certificate of this table."),
        (whole.replace('"number":2', '"number":3'), "claim.json is refused. Its witness does not fit its number"),
        (whole.replace("test_and_set", "idle"), "claim.json is refused. It is a certificate of another type"),
        (whole.replace("[0,1],[2,1]", "[0,1],[1,2]"), "claim.json is refused. Its collision 0 is none. (cnum: check: 7 NotACollision 0)"),
        (unread, "claim.json is right: it is a certificate of this table."),
        (stocks, "claim.json is right: it is a certificate of this table."),
        (stocks.replace("0],0,", "0],1,"), "claim.json is refused. Its join 0 is none: the two runs do not show one operation the same. (cnum: check: 8 NotAJoin 0)"),
        (unread.replace(":2", ":3"), "claim.json is refused. Its evidence does not show that so many processes can agree. (cnum: check: 3 Least)"),
        ("{" * 16777217, "claim.json is refused. It is longer than any certificate. (cnum: certificate: too long)"),
        ("{", "claim.json is refused. It is no JSON, and so no certificate. (cnum: certificate: 1 NotJson)"),
    ):
        use.value(drop % f"'claim.json', {json.dumps(text)}")
        well = use.until(f"document.getElementById('claim-said').textContent.startsWith({json.dumps(told)})", 10)
        yield f"a certificate that is dropped: {told}", well, use.text("claim-said")
        box = use.value("(it => [it.top, it.bottom, innerHeight])(document.getElementById('notice').getBoundingClientRect())")
        seen = use.text("notice-text").startswith(told) and 0 <= box[0] and box[1] <= box[2]
        yield "it is answered where one looks", seen, (box, use.text("notice-text"))
    use.value("document.getElementById('notice-close').click()")
    yield "the answer can be closed", use.is_hidden("notice"), ""
    yield "a certificate that is no JSON is not explained", use.text("claim-told") == "", use.text("claim-told")
    use.value(drop % f"'claim.json', {json.dumps(stocks)}")
    line = "from zero: tas* and tas* leave the same state: tas and tas are in one team"
    well = use.until(f"document.getElementById('claim-told').textContent.includes({json.dumps(line)})", 10)
    yield "a certificate by stocks is explained, a line for each join", well, use.text("claim-told")
    use.value("(() => { document.querySelector('#claim-told details').open = true; })()")
    use.until("document.querySelector('#claim-told details pre').textContent")
    wanted = called(["explain", "--stocks", "--all", "-", "--table", str(TOP / "types/test_and_set.toml")], stocks.encode())[0].decode()
    yield "it is explained as it is printed", use.texts("#claim-told details pre") == [wanted], use.texts("#claim-told details pre")
    for name in ("slot.toml", "SLOT.TOML", "slot.toml.txt"):
        use.choose("types/idle")
        use.value(drop % f"{json.dumps(name)}, {json.dumps(SLOT)}")
        well = use.until(f"Cnum.page.text === {json.dumps(SLOT)}", 10) and use.has_number("1")
        told = use.text("notice-text")
        yield f"the table {name} that is dropped", well and told == f"{name} is the table now.", (use.table(), told)
    use.choose("types/idle")
    use.value(drop % f"'wide.toml', new Uint8Array({list(SLOT.encode('utf-16'))})")
    yield "a table in UTF-16", use.until(f"Cnum.page.text === {json.dumps(SLOT)}", 10), use.table()


def explanations(use):
    use.open()
    for name in ("test_and_set", "sticky_bit", "idle", "counter_3", "three_shot"):
        use.choose(f"types/{name}")
        wanted = called(["why", "-"], TYPES[name])[0].decode()
        use.value("(() => { document.querySelector('#why details').open = true; })()")
        use.until("document.querySelector('#why details pre').textContent")
        yield f"the explanation of {name}, as it is printed", use.texts("#why details pre") == [wanted], use.texts("#why details pre")
        use.value("(() => { document.querySelector('#why details').open = false; })()")
        told = json.loads(called(["why", "--as", "json", "-"], TYPES[name])[0])
        if told["lasting"]:
            example = table_of_lasting(tomllib.loads(TYPES[name]), told["lasting"])
            told["witness"] = json.loads(called(["why", "--limit", "3", "--as", "json", "-"], example)[0])["witness"]
            roles = [it["operation"] for it in told["witness"]["processes"]]
            yield f"the operations of {name} keep their roles", roles == [told["lasting"][it] for it in ("single", "many", "many")], roles
        for about, selector, texts in shown_of(told):
            yield f"{about} of {name}", use.texts(selector) == texts, (use.texts(selector), texts)
    for name, most, count in (("test_and_set", "as many as can agree", 2), ("sticky_bit", "at first. Choose up to 8.", 3)):
        use.choose(f"types/{name}")
        said = use.text("limit-said"), use.count(".process")
        yield f"for how many processes the evidence of {name} is", most in said[0] and f" {count} " in said[0] and said[1] == count, said
    use.value("(it => { it.value = '5'; it.dispatchEvent(new Event('change')); })(document.getElementById('limit'))")
    well = use.until("document.querySelectorAll('.process').length === 5", 20) and "as you chose" in use.text("limit-said")
    kept = use.text("why")
    yield "why any number stays, and nothing below it says that more were not looked for", "Why any number" in kept and "not looked for" not in kept, kept
    yield "one can choose more", well and use.text("number") == "infinite", (use.text("limit-said"), use.count(".process"))
    use.choose("types/idle")
    yield "for one process there is nothing to say or choose", use.is_hidden("limit-part") and use.text("limit-said") == "", use.text("limit-said")
    use.choose("catalogue/cas_3")
    said = use.text("certificate-said"), use.count(".process"), use.text("fault")
    yield "a type with many choices has evidence too", said[0].startswith("The certificate is for 7:") and said[1:] == (3, ""), said
    use.choose("types/three_shot")
    label = use.value("document.querySelector('#why > button').textContent")
    whole = use.value("Cnum.page.certificateText().then(it => JSON.parse(it).collisions.length)")
    yield "how many more there are, of how many", label == f"Show 10 more of {whole}", label
    while not use.value("document.querySelector('#why > button').hidden"):
        before = use.count(".collisions > li:not([hidden])")
        use.value("document.querySelector('#why > button').click()")
        use.until(f"document.querySelectorAll('.collisions > li:not([hidden])').length > {before}")
    yield "all collisions on demand", use.count(".collisions > li") == whole > 12, whole


def table_of_lasting(type_, lasting):
    """The two operations of this type that last, the single one first, from their start state."""
    states, order = type_["states"], sorted(type_["states"], key=lambda it: it != lasting["start"])
    rows = {it["name"]: [[it[row][states.index(state)] for state in order] for row in ("response", "next")] for it in type_["operation"]}
    return table_text(type_["name"], order, type_["responses"], [(lasting[it], *rows[lasting[it]]) for it in ("single", "many")])


def shown_of(told):
    """What the page has to show of an explanation, as (about, selector, texts)."""
    runs = [run for it in told["collisions"] for run in ((it, it["a_first"]), (it, it["b_first"]))]
    yield "the states of the collisions", "#why .run .state", [it for one, run in runs for it in (one["start"], *(step["state"] for step in run["steps"]))]
    steps = [step for _, run in runs for step in run["steps"]]
    yield "the steps of the collisions", "#why .step", [f"p{it['process']} {it['operation']} answers {it['response']}" for it in steps]
    ends = [f"p{one['process']} got {run['pair']['response']}, reads {run['pair']['state']}" for one, run in runs]
    yield "what the process got", "#why .run .end", ends
    yield "who cannot tell", "#why .collisions strong", [f"p{it['process']} cannot tell" for it in told["collisions"]]
    rows = []
    for it in told["witness"]["processes"] if told["witness"] else []:
        pairs = [f"got {pair['response']}, reads {pair['state']}" for side in ("a_first", "b_first") for pair in it[side]]
        if not rows or rows[-1] != (it["operation"], it["team"], pairs):
            rows.append((it["operation"], it["team"], pairs))
    yield "the pairs of the witness", "#why .pairs td li", [pair for *_, pairs in rows for pair in pairs]
    lasting = told["lasting"] or {"single_states": [], "many_states": []}
    states = [", ".join(it) for it in (lasting["single_states"], lasting["many_states"]) if it]
    yield "the states of operations that last", "#why .pairs tr td:last-child:nth-child(2)", states


def searches(use):
    use.open()
    use.begin(LONG)
    yield "a long search shows that it runs", use.until("!document.getElementById('running').hidden", 20), use.text("meaning")
    use.value("document.getElementById('break-off').click()")
    well = use.until("document.getElementById('running').hidden", 5)
    yield "it can be broken off", well and "broken off" in use.text("meaning"), use.text("meaning")
    use.choose("types/test_and_set")
    yield "and the page goes on", use.text("number") == "2", use.text("number")
    use.begin(LONG_UNREAD)
    use.until("!document.getElementById('running-without').hidden", 20)
    use.value("document.getElementById('break-off-without').click()")
    said = use.is_hidden("running-without"), use.text("meaning-without"), use.text("number-without")
    yield "a long search for the number without reads can be broken off", said == (True, "The search was broken off.", "–"), said
    yield "and does not hold up the other", use.has_number("6"), (use.text("meaning"), use.text("meaning-without"))
    use.begin(LONG)
    use.until("!document.getElementById('running').hidden", 20)
    use.choose("types/idle")
    yield "another table breaks it off too", use.text("number") == "1" and use.is_hidden("running"), use.text("number")
    use.value(f"(() => {{ Cnum.page.text = {json.dumps(TYPES['three_shot'])}; Cnum.page.refresh(); Cnum.page.text += 'x'; }})()")
    well = use.until("document.querySelectorAll('.process').length === 3", 20) and use.has_number("3")
    yield "letters that are typed meanwhile do not disturb it", well, use.text("number")


def without(use):
    """A browser that lacks what the program needs gets a sentence."""
    for name in ("WebAssembly", "DecompressionStream", "Worker"):
        script = use.call("Page.addScriptToEvaluateOnNewDocument", source=f"delete globalThis.{name};")["identifier"]
        use.browser.open("about:blank")
        use.browser.open(PAGE)
        well = use.until("document.getElementById('trouble') && document.getElementById('trouble').textContent", 10)
        told = use.text("trouble")
        yield f"without {name}", well and told.startswith("This browser cannot run the program"), told
        use.call("Page.removeScriptToEvaluateOnNewDocument", identifier=script)


def for_all(use):
    """Keyboard, screen readers, contrast, a phone."""
    shown = "#example=types/three_shot&run=0,1,x1"
    use.open(shown)
    wants_name = {"button", "combobox", "textbox", "link", "region", "img", "spinbutton"}
    nodes = [it for it in use.call("Accessibility.getFullAXTree")["nodes"] if not it.get("ignored") and it["role"]["value"] in wants_name]
    nameless = [it for it in nodes if not it.get("name", {}).get("value")]
    yield "each control has a name", nodes and nameless == [], nameless[:3]
    count = use.value(f"[...document.querySelectorAll({json.dumps(FOCUSABLE)})].filter(it => it.checkVisibility()).length")
    reached = set()
    for _ in range(count + 5):
        use.key("Tab", 9)
        reached.add(use.value(MARK_FOCUSED))
    yield "the key Tab leads to each", len(reached) >= count, f"{len(reached)} of {count}"
    use.value("document.querySelector('#grid td select').focus()")
    use.key("ArrowRight", 39, alt=True)
    there = use.value("document.activeElement.getAttribute('aria-label')")
    yield "Alt and an arrow lead to the next cell", there == "response of x in a1", there
    for mode in ("light", "dark"):
        use.call("Emulation.setEmulatedMedia", features=[{"name": "prefers-color-scheme", "value": mode}])
        use.open(shown)
        for about in ("with a number", "with a flaw"):
            contrasts = use.value(CONTRAST)
            faint = [it for it in contrasts if it[0] < 4.5]
            yield f"contrast {about}, {mode}", len(contrasts) > 20 and faint == [], faint
            use.give('name = "X"\n')
    use.call("Emulation.setEmulatedMedia", features=[])
    use.call("Emulation.setDeviceMetricsOverride", **PHONE)
    for path in ("types/test_and_set", "types/three_shot", "types/wide", "catalogue/ll_sc_2"):
        use.open(f"#example={path}")
        yield f"the first state of {path} is in view on a phone", use.value(START_IN_VIEW), ""
        width = use.value("document.documentElement.scrollWidth")
        yield f"{path} on a phone", width <= PHONE["width"], width
    use.call("Emulation.clearDeviceMetricsOverride")


def paper(use):
    """The page in print: one sheet for a small type, nothing cut, and no controls."""
    sheets_of = {"types/test_and_set&run=1,1,0,0,0,0,1,1": 1, "types/binary_register": 1, "types/wide": 2}
    for link, most in sheets_of.items():
        use.open(f"#example={link}")
        printed = base64.b64decode(use.call("Page.printToPDF", paperWidth=8.27, paperHeight=11.69, preferCSSPageSize=True)["data"])
        sheets = len(re.findall(rb"/Type\s*/Page\b", printed))
        yield f"{link} on {most} sheets", 1 <= sheets <= most, sheets
    use.call("Emulation.setEmulatedMedia", media="print")
    use.call("Emulation.setDeviceMetricsOverride", width=711, height=1000, deviceScaleFactor=1, mobile=False)
    for path in ("types/wide", "catalogue/ll_sc_2", "types/three_shot"):
        use.open(f"#example={path}&run=" if "wide" in path else f"#example={path}&run=0,1,1&screen=why")
        widths = use.value("[...document.querySelectorAll('html, #grid, #marks, .wide')].map(it => it.scrollWidth - it.clientWidth)")
        yield f"{path}: nothing is cut", max(widths) <= 1, widths
        text = use.value("(it => [it.checkVisibility(), it.scrollHeight - it.clientHeight])(document.getElementById('marks'))")
        yield f"{path}: the whole text", text[0] and text[1] <= 1 and use.text("marks").rstrip() == use.table().rstrip(), text
        cells = use.value("[...document.querySelectorAll('#grid td')].map(it => it.innerText.replace(/\\s/g, ''))")
        wanted = [it.replace(">", "→") for row in use.value(CELLS) for it in row]
        yield f"{path}: the whole grid", cells == wanted and cells, cells
        controls = "[...document.querySelectorAll('input, select, textarea, button:not(.word)')]"
        controls = use.value(f"{controls}.filter(it => it.checkVisibility()).map(it => it.outerHTML)")
        yield f"{path}: no controls", controls == [], controls
    use.call("Emulation.setEmulatedMedia", media="")
    use.call("Emulation.clearDeviceMetricsOverride")


def slides(use):
    """One part alone, large."""
    use.call("Emulation.setDeviceMetricsOverride", width=1920, height=1080, deviceScaleFactor=1, mobile=False)
    size = "parseFloat(getComputedStyle(document.querySelector(%r)).fontSize)"
    sizes = (("number", "#number", 150), ("number", "#meaning", 24), ("why", "#why p", 20), ("states", "#type-name", 24), ("run", ".decision", 20))
    for view, place, least in sizes:
        use.open(f"#example=types/three_shot&run=0,1&view={view}")
        seen = use.value(size % place)
        yield f"{place} in the view {view}", seen >= least, seen
    use.open("#example=types/three_shot&view=states")
    width, height = use.value("(it => [it.width, it.height])(document.querySelector('#picture svg').getBoundingClientRect())")
    yield "the picture fills the view", height > 700, (width, height)
    use.call("Emulation.clearDeviceMetricsOverride")


def languages(use):
    """The page in German, and back in English."""
    use.open("#example=types/three_shot&run=0,1,x1&lang=de")
    head = use.value("[document.documentElement.lang, document.querySelector('h1').textContent, document.title]")
    yield "the page is German", head[0] == "de" and head[1].startswith("Wie viele Prozesse") and head[2] == "three_shot – cnum", head
    yield "with what was said before in English", "können sich 3 Prozesse einigen, und kein Protokoll" in use.text("meaning"), use.text("meaning")
    yield "the log too", use.texts(".log li")[2] == "Prozess 1: hält für immer an", use.texts(".log li")
    yield "the link says so", use.until("location.hash.endsWith('&lang=de')", 5), use.value("location.hash")
    empty = use.value("[...document.querySelectorAll('[data-text]')].filter(it => !it.textContent.trim()).map(it => it.dataset.text)")
    yield "no text is empty", empty == [], empty
    use.value("(it => { it.value = 'en'; it.dispatchEvent(new Event('change')); })(document.getElementById('language'))")
    well = use.until(f"{READY} && document.documentElement.lang === 'en' && document.querySelectorAll('.log li').length === 3")
    yield "and English again, with the same run", well and use.has_number("3"), use.value("location.hash")
    use.open("#lang=xx")
    yield "a language without texts", "language “xx”" in use.text("trouble") and use.is_hidden("content"), use.text("trouble")


def foot(use):
    """What is said at the end of the page, and the link at its beginning."""
    use.open()
    told = use.value("document.querySelector('footer').textContent")
    program, _, proof = called(["--version"])[0].decode().strip().partition(", proved ")
    yield "the page says what program is in it", f"come from the program {program}. It is proved ({proof})" in told, told
    yield "and what it does not do", "each command of the program but serve" in told, told
    use.value("document.getElementById('skip').focus()")
    boxes = "['#skip', 'h1'].map(it => document.querySelector(it).getBoundingClientRect())"
    meets = f"(([a, b]) => a.right > b.left && a.bottom > b.top && b.bottom > a.top)({boxes})"
    tips = use.count("#picture .tip"), use.count("#picture .arrow"), use.count("#picture marker")
    yield "each arrow has its head as a shape", tips[0] == tips[1] > 0 and tips[2] == 0, tips
    yield "the skip link does not cover the heading", not use.value(meets), ""


def quiet(use):
    """What the browser reported in all of this."""
    asked = [it["request"]["url"] for it in use.browser.told("Network.requestWillBeSent")]
    here = ((TOP / "web").as_uri() + "/", pathlib.Path(tempfile.gettempdir()).as_uri() + "/", "blob:", "data:", "about:")
    away = {it for it in asked if not it.startswith(here)}
    yield "no request to anywhere", not away and asked, away
    thrown = [it["exceptionDetails"].get("exception", {}).get("description", it) for it in use.browser.told("Runtime.exceptionThrown")]
    yield "no exception", thrown == [], thrown
    logged = [it["entry"]["text"] for it in use.browser.told("Log.entryAdded") if it["entry"]["level"] == "error"]
    yield "no error is logged", logged == [], logged


# What the copy of a page does with an answer of the program: in each text for people each word has another letter.
PLANTED = """
    const changed = text => text.replace(/\\b[a-z]{3,}\\b/g, word => `${word}z`);
    function planted(words, { status, stdout, stderr }) {
        const text = new TextDecoder().decode(stdout);
        const isForm = words.includes('--as') || ['find', 'draw'].includes(words[0]);
        const isLint = isForm && words[0] === 'lint' && text;
        const flaws = isLint && JSON.parse(text).flaws.map(it => ({ ...it, text: changed(it.text) }));
        const told = isLint ? JSON.stringify({ ...JSON.parse(text), flaws }) : isForm ? text : changed(text);
        return { status, stdout: encoder.encode(told), stderr };
    }
"""
PLANTED_AT = "    return function run(words"
ANSWERED = "return { status, stdout: joined(written[1]), stderr: joined(written[2]) };"
SHOWN = """(() => {
    const texts = selector => [...document.querySelectorAll(selector)].map(it => it.textContent);
    const places = ['number', 'meaning', 'recoverable', 'limit-said', 'plan-said', 'notes', 'fault'].map(it => document.getElementById(it).textContent);
    const why = [...document.querySelectorAll('#why > :not(details)')].map(it => it.textContent);
    return [places, why, texts('#marks mark'), texts('.log li'), texts('.decision'), texts('#protocol td'), texts('#comparison td')];
})()"""


def planted(use):
    """A copy of the page whose program speaks otherwise: it shows the same numbers, reasons, places of flaws and runs."""
    pages = {"web": TOP / "web/index.html"}
    with tempfile.TemporaryDirectory() as room:
        shutil.copytree(TOP / "web", f"{room}/web")
        pages["copy"] = pathlib.Path(room, "web/index.html")
        host = pages["copy"].parent / "page/host.js"
        text = host.read_text()
        yield "the host is as the copy wants it", text.count(PLANTED_AT) == text.count(ANSWERED) == 1, ""
        answered = ANSWERED.replace("{ status", "planted(words, { status").replace("};", "});")
        host.write_text(text.replace(PLANTED_AT, PLANTED + PLANTED_AT).replace(ANSWERED, answered))
        lives = "types/three_shot&crashes=yes&run=0,1,1,1,c1,0,0,1"
        for path in ("types/three_shot&run=0,1,x1,0,0,2", lives, "types/sticky_bit&run=1,1", "types/idle", "types/wide", "catalogue/queue_2"):
            link, shown = f"#example={path}", {}
            for name, page in pages.items():
                use.open(link, page)
                use.value("[...document.querySelectorAll('#comparison button')].find(it => it.textContent === 'Each pair of operations').click()")
                use.until("document.querySelector('#comparison table') || document.querySelector('#comparison button').disabled", 20)
                shown[name] = use.value(SHOWN)
            yield f"{link} is shown the same", shown["web"] == shown["copy"] and shown["web"][1], shown
        use.value("(() => { document.querySelector('#why details').open = true; })()")
        use.until("document.querySelector('#why details pre').textContent")
        yield "the copy speaks otherwise", "consensusz numberz" in use.text("why"), use.texts("#why details pre")
        for table, _ in flawed(TYPES["test_and_set"]):
            marks = {}
            for name, page in pages.items():
                use.open("", page)
                use.give(table)
                marks[name] = use.value(SHOWN)
            yield f"the places of flaws of {table!r}", marks["web"] == marks["copy"] and marks["web"][2], marks


ALL = (
    first_answer, flaws, examples, meanings, pictures, picture_tools, words, grid, changes, comparisons, unread, entry_changes, told_maps, taken_changes,
    maps_for_all, two_runs, example_search,
    planted, schedules, shortest_plans, chosen_plans, crashes, forgotten, pictured_runs, adversaries, keys, phone, links, certificates, explanations, searches, one_file, without, for_all,
    paper, slides, languages, foot, quiet, on_a_server, missing_parts,
)
# The parts that also run in a browser that is not driven by DevTools.
WITHOUT_DEVTOOLS = (
    first_answer, meanings, pictures, words, grid, changes, comparisons, unread, entry_changes, told_maps, taken_changes, two_runs, example_search, planted, schedules,
    shortest_plans, chosen_plans, crashes, forgotten, pictured_runs, adversaries, keys, links, certificates, explanations, searches, one_file, languages, foot, on_a_server, missing_parts,
)
