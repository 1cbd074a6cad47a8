"""The page in a lecture hall and in a course, as a person uses it: its screens, the large view of a run, the run that fails, sheets and
runs on paper, and the back button. Each function here is a part of tests/page/run, as those of uses.py.
"""
import base64
import json
import re

from uses import CONTRAST, PHONE, READY, TEXTS_MEET

SCREENS = {"why": ["table-part", "number-part", "picture-part", "why-part"], "change": ["table-part", "compare-part"]}
SCREENS |= {"run": ["table-part", "protocol-part"], "print": ["table-part", "sheet-part"]}
SHOWN = "[...document.querySelectorAll('.part')].filter(it => it.checkVisibility()).map(it => it.id)"
SIZES = [(1280, 720), (1920, 1080)]
# How far the page is larger than the window, and which parts of the large view lie outside of it.
OVER = """[document.documentElement.scrollWidth - innerWidth, document.documentElement.scrollHeight - innerHeight,
    ...[...document.querySelectorAll('.diagram, .process, .states-of-run svg, .controls, #choices, .last-step, .end')]
        .filter(it => it.checkVisibility()).map(it => it.getBoundingClientRect())
        .filter(it => it.right > innerWidth + 1 || it.bottom > innerHeight + 1 || it.top < -1 || it.left < -1).map(it => [it.right, it.bottom])]"""
LETTER = "(it => 13 * it.getBoundingClientRect().height / it.getAttribute('height'))(document.querySelector('%s svg'))"
FOCUSED = "document.activeElement.textContent"
HEADING = "[...document.querySelectorAll('.last-step')].filter(it => it.checkVisibility()).map(it => it.textContent)"
RUN = "#example=types/three_shot&plan=certificate&inputs=10,20,30&run=0,1,1,0,2,2,1"


def sized(use, width, height, mode="light"):
    use.call("Emulation.setDeviceMetricsOverride", width=width, height=height, deviceScaleFactor=1, mobile=False)
    use.call("Emulation.setEmulatedMedia", features=[{"name": "prefers-color-scheme", "value": mode}])


def as_before(use):
    use.call("Emulation.clearDeviceMetricsOverride")
    use.call("Emulation.setEmulatedMedia", media="", features=[])


def printed(use):
    """What the page prints: the number of sheets."""
    pdf = base64.b64decode(use.call("Page.printToPDF", paperWidth=8.27, paperHeight=11.69, preferCSSPageSize=True)["data"])
    return len(re.findall(rb"/Type\s*/Page\b", pdf))


def screens(use):
    """One screen at a time beside the table, by the bar, by links and by keys; on a phone the table is one of them."""
    for screen, parts in SCREENS.items():
        use.open(f"#example=types/three_shot&screen={screen}")
        yield f"the screen {screen}", sorted(use.value(SHOWN)) == sorted(parts), use.value(SHOWN)
    use.open("#example=types/three_shot&inputs=1,2,3&run=0")
    yield "a link with a run shows the run", "protocol-part" in use.value(SHOWN), use.value(SHOWN)
    use.value("document.querySelector('#screens [data-screen=change]').click()")
    kept = use.until("location.hash.endsWith('&screen=change')", 5)
    yield "the bar leads to another, and the link says so", kept and "compare-part" in use.value(SHOWN), use.value("location.hash")
    yield "the bar says which is shown", use.texts("#screens [aria-current]") == ["Change"], use.texts("#screens [aria-current]")
    use.value("document.getElementById('skip-protocol').click()")
    yield "a link at the top leads to the protocol", use.value("document.activeElement.id") == "protocol-part" and "protocol-part" in use.value(SHOWN), ""
    use.open("#example=types/three_shot&screen=change")
    use.value("document.getElementById('skip-table').click()")
    yield "a link leads past the table", use.value("document.activeElement.id") == "compare-part", use.value("document.activeElement.id")
    for mode in ("light", "dark"):
        sized(use, 1280, 720, mode)
        for screen in SCREENS:
            use.open(f"#example=catalogue/queue_2&screen={screen}")
            faint = [it for it in use.value(CONTRAST) if it[0] < 4.5]
            yield f"contrast of {screen}, {mode}", faint == [], faint
            across = use.value("document.documentElement.scrollWidth")
            yield f"{screen} is as wide as the window, {mode}", across <= 1280, across
            height = use.value("document.documentElement.scrollHeight")
            most = 720 if screen == "change" else 2 * 720
            yield f"{screen} is few windows high, {mode}", height <= most, height
    as_before(use)
    use.call("Emulation.setDeviceMetricsOverride", **PHONE)
    use.call("Emulation.setTouchEmulationEnabled", enabled=True)
    for screen in (*SCREENS, "table"):
        use.open(f"#example=types/three_shot&screen={screen}")
        wanted = ["table-part"] if screen == "table" else [it for it in SCREENS[screen] if it != "table-part"]
        width = use.value("document.documentElement.scrollWidth")
        yield f"{screen} on a phone", use.value(SHOWN) == wanted and width <= PHONE["width"], (use.value(SHOWN), width)
    sizes = use.value("[...document.querySelectorAll('#grid .small')].map(it => it.getBoundingClientRect()).map(it => Math.min(it.width, it.height))")
    yield "what takes a name away is large enough for a finger", sizes and min(sizes) >= 44, sizes
    tops = use.value("['label[for=example-number]', '#example-number'].map(it => document.querySelector(it).getBoundingClientRect()).map(it => (it.top + it.bottom) / 2)")
    yield "of number stands with its menu", abs(tops[0] - tops[1]) < 12, tops
    use.call("Emulation.setTouchEmulationEnabled", enabled=False)
    as_before(use)
    use.open("#example=types/idle")
    words = [(it, len(re.findall(it, use.value("document.querySelector('header').innerText"), re.I))) for it in ("consensus number", "wait-free", "Herlihy")]
    yield "the words that one searches for are there, once each", all(count == 1 for _, count in words), words


def large_view(use):
    """The run on one screen of a projector, by a link, by its button and by its key, with no click before."""
    for width, height in SIZES:
        for mode in ("light", "dark"):
            sized(use, width, height, mode)
            for about, link in (("three processes", RUN), ("eight", "#example=types/sticky_bit&limit=8"), ("those that come back", "#example=types/sticky_bit&limit=3&crashes=yes&run=0,1,c0")):
                use.open(f"{link}&view=run")
                over = use.value(OVER)
                yield f"{about} fit {width} to {height}, {mode}", over[:2] == [0, 0] and over[2:] == [], over
            use.open(f"{RUN}&view=run")
            letter = use.value(LETTER % ".diagram")
            yield f"its letters, {width} to {height}, {mode}", letter >= 22 * height / 1080 - 0.1, letter
            contrast = [it for it in use.value(CONTRAST) if it[0] < 4.5]
            yield f"its contrast, {width} to {height}, {mode}", contrast == [], contrast
    yield "the last step is its heading", use.value(HEADING) == ["three_shot – 7. process 1: reads a2 at node 1: team A"], use.value(HEADING)
    use.key("2", 50, name="Digit2")
    well = use.until("document.querySelector('.last-step').textContent.startsWith('three_shot – 8. process 2')", 5)
    yield "a key works at once", well and use.value(OVER)[:2] == [0, 0], use.value(HEADING)
    use.do("await Cnum.page.protocol.runAll();")
    over = use.value(OVER)
    yield "a long run fits too", over[:2] == [0, 0] and over[2:] == [], over
    end = use.value("(it => it.scrollLeft + it.clientWidth >= it.scrollWidth - 1)(document.querySelector('#protocol .diagram'))")
    yield "and shows its end", end, ""
    use.key("l", 76, name="KeyL")
    well = use.until("location.hash.includes('run=') && !location.hash.includes('view=')", 5)
    yield "the key leads back to the page", well and "table-part" in use.value(SHOWN), use.value("location.hash")
    use.value("document.getElementById('large').click()")
    well = use.until("location.hash.endsWith('&view=run')", 5)
    yield "and the button to the large view", well and use.value(SHOWN) == ["protocol-part"], use.value("location.hash")
    use.key("Escape", 27)
    yield "Escape leads back", use.until("!document.body.classList.contains('large')", 5) and use.value(FOCUSED) == "Large (L)", use.value(FOCUSED)
    use.open(f"{RUN}&view=run&lang=de")
    yield "it is German", use.value(HEADING) == ["three_shot – 7. Prozess 1: liest a2 an Knoten 1: Team A"] and use.value(OVER)[:2] == [0, 0], use.value(HEADING)
    as_before(use)


def one_screen(use):
    """The large view in a window of each size, in any browser: nothing scrolls or is cut, and its letters can be read."""
    for width, height in SIZES:
        use.browser.resize(width, height)
        for link in (RUN, "#example=types/sticky_bit&limit=8", "#example=types/test_and_set&try=yes"):
            use.open(f"{link}&view=run")
            size, over = use.value("[innerWidth, innerHeight]"), use.value(OVER)
            yield f"{link} fits {width} to {height}", size == [width, height] and over == [0, 0], (size, over)
        use.open(f"{RUN}&view=run")
        letter = use.value(LETTER % ".diagram")
        yield f"its letters, {width} to {height}", letter >= 22 * height / 1080 - 0.1, letter
    use.browser.resize(1200, 900)


PRESS_FAILING = "[...document.querySelectorAll('#failing button')].find(it => it.textContent === %r).click()"
WRONG = "[...document.querySelectorAll('.failing-run')].map(it => it.classList.contains('wrong'))"
STEPS = "[...document.querySelectorAll('.failing-run .diagram')].map(it => [...it.querySelectorAll('.mark-of-step text:first-of-type')].map(one => one.textContent))"


def failing_run(use):
    """The run that fails, if one process more tries it."""
    use.open("#example=types/test_and_set")
    label = use.texts("#why p > button")
    yield "the reason leads to it", label == ["Let 3 try it anyway"], label
    use.value("document.querySelector('#why p > button').click()")
    yield "and the link says so", use.until("location.hash === '#example=types/test_and_set&try=yes'", 5), use.value("location.hash")
    yield "it begins with no step", use.value(STEPS) == [[], []], use.value(STEPS)
    yield "with the focus on the button that steps on", use.value(FOCUSED) == "Next", use.value(FOCUSED)
    steps = [["writes 10", "writes 20", "writes 20", "tas/zero", "reads one", "decides %s", "tas/one", "reads one"] for _ in range(2)]
    wanted = [[it % value if "%" in it else it for it in run] for run, value in zip(steps, ("10", "20"))]
    for count in range(1, 9):
        use.key("ArrowRight", 39)
        seen = use.value(STEPS)
        yield f"{count} steps by a key", seen == [it[:count] for it in wanted], seen
    said = use.value("document.querySelector('.verdict').textContent")
    yield "it says why the process cannot be right", said.startswith("Process 1 got one and reads one in both runs.") and said.endswith("one of the runs ends with two decisions."), said
    yield "the process that cannot tell stands out", use.count(".band") == 2, use.count(".band")
    for value, wrong in (("10", [False, True]), ("20", [True, False])):
        use.value(PRESS_FAILING % f"Let process 1 decide {value}")
        yield f"whatever it decides: {value}", use.value(WRONG) == wrong, (use.value(WRONG), use.texts(".outcome"))
    told = use.texts(".outcome")
    yield "two values are decided", told[0] == "Two decisions: process 0 has decided 10, and process 1 decides 20.", told
    use.value(PRESS_FAILING % "Back to the protocol")
    yield "and back", use.until("location.hash === '#example=types/test_and_set&screen=run'", 5) and use.count(".process") == 2, use.value("location.hash")
    yield "with the focus where it began", use.value(FOCUSED) == "Let 3 try it anyway", use.value(FOCUSED)
    for width, height in SIZES:
        for path in ("types/test_and_set", "types/three_shot", "catalogue/fetch_or_and_3bit"):
            sized(use, width, height, "dark")
            use.open(f"#example={path}&try=yes&view=run")
            use.value("Cnum.page.failing.moveTo(99)")
            over = use.value(OVER)
            yield f"{path} fits {width} to {height}", over[:2] == [0, 0] and over[2:] == [], over
            yield f"{path}: no text lies on another, {width}", use.value(TEXTS_MEET % ".failing-run .space-time") == [], use.value(TEXTS_MEET % ".failing-run .space-time")
            letter = use.value(LETTER % ".failing-run .diagram")
            yield f"{path}: its letters, {width}", letter >= 22 * height / 1080 - 0.1, letter
    as_before(use)
    use.open("#example=types/binary_register&try=yes")
    use.value("Cnum.page.failing.moveTo(99)")
    use.value(PRESS_FAILING % "Let process 0 decide 20")
    told = use.texts(".outcome")
    yield "where it is first itself, it is wrong of the team that was", told[0].startswith("Wrong: team A was first") and told[1].startswith("Here 20 is right"), told
    use.open("#example=types/sticky_bit")
    yield "there is none where any number can agree", use.is_hidden("try-part") and use.count("#why p > button") == 0, ""
    use.open("#example=types/test_and_set&try=yes&lang=de")
    yield "it is German", use.texts("#failing .failing-run h3")[0] == "Lauf 1: Team A ist zuerst, mit 10", use.texts("#failing h3")
    use.call("Emulation.setDeviceMetricsOverride", **PHONE)
    width = use.value("document.documentElement.scrollWidth")
    yield "it fits a phone", width <= PHONE["width"], width
    as_before(use)


TO_TRY = "#why p > button:not(.word)"


def failing_unread_run(use):
    """The run that fails without reads, if one process more tries it."""
    use.open("#example=catalogue/queue_1&reads=no")
    well = use.until(f"document.querySelectorAll({json.dumps(TO_TRY)}).length === 1", 20)
    yield "the reason leads to it", well and use.texts(TO_TRY) == ["Let 3 try it without reads"], use.texts(TO_TRY)
    yield "and so does the screen of the run", use.text("try-anyway") == "Let 3 try it without reads", use.text("try-anyway")
    use.value(f"document.querySelector({json.dumps(TO_TRY)}).click()")
    yield "and the link says so", use.until("location.hash === '#example=catalogue/queue_1&reads=no&try=yes'", 5), use.value("location.hash")
    use.open("#example=catalogue/queue_1&reads=no&try=yes")
    yield "a link opens it, and it begins with no step", use.value(STEPS) == [[], []], use.value(STEPS)
    writes = ["writes 10", "writes 20", "writes 20"]
    wanted = [[*writes, "enq_a/ok", "enq_b/full", "deq/a", "enq_b/ok", "A or B?"], [*writes, "enq_b/ok", "enq_b/full", "A or B?"]]
    for count in range(1, 9):
        use.key("ArrowRight", 39)
        seen = use.value(STEPS)
        yield f"{count} steps by a key", seen == [it[:count] for it in wanted], seen
    said = use.value("document.querySelector('.verdict').textContent")
    well = said.startswith("Process 1 gets the same in both runs, and the object is in state qb after each.") and said.endswith("it is wrong in one of the runs.")
    yield "it says why the process cannot be right", well, said
    for value, wrong in (("10", [False, True]), ("20", [True, False])):
        use.value(PRESS_FAILING % f"Let process 1 decide {value}")
        yield f"whatever it decides: {value}", use.value(WRONG) == wrong, (use.value(WRONG), use.texts(".outcome"))
    use.value("(() => document.querySelector('#protocol-part .of-choice button, .of-choice button').click())()")
    use.until("!document.querySelector('#failing .failing-run')", 5)
    yield "any number can agree with reads, so there is none", use.is_hidden("try-part") and use.count("#failing .failing-run") == 0 and use.count(".process") > 0, ""
    for width, height in SIZES:
        for path in ("catalogue/queue_1", "catalogue/stack_2", "catalogue/weighted_semaphore_3"):
            sized(use, width, height, "dark")
            use.open(f"#example={path}&reads=no&try=yes&view=run")
            use.value("Cnum.page.failing.moveTo(99)")
            over = use.value(OVER)
            yield f"{path} fits {width} to {height}", over[:2] == [0, 0] and over[2:] == [] and use.count(".failing-run") == 2, over
            yield f"{path}: no text lies on another, {width}", use.value(TEXTS_MEET % ".failing-run .space-time") == [], use.value(TEXTS_MEET % ".failing-run .space-time")
            letter = use.value(LETTER % ".failing-run .diagram")
            yield f"{path}: its letters, {width}", letter >= 22 * height / 1080 - 0.1, letter
    as_before(use)
    use.open("#example=types/test_and_set&reads=no")
    well = use.until(f"document.querySelectorAll({json.dumps(TO_TRY)}).length === 1", 20)
    yield "where not even reads help, it is the run with reads", well and use.texts(TO_TRY) == ["Let 3 try it anyway"], use.texts(TO_TRY)
    use.open("#example=catalogue/queue_1&reads=no&try=yes&lang=de")
    use.value("Cnum.page.failing.moveTo(99)")
    said = use.value("document.querySelector('.verdict').textContent")
    yield "it is German", said.startswith("Prozess 1 bekommt in beiden Läufen dasselbe"), said


def sheets(use):
    """An exercise and its solution, one page each."""
    for path in ("types/test_and_set", "types/three_shot", "types/sticky_bit", "types/idle", "types/wide", "catalogue/queue_2", "catalogue/fetch_or_and_3bit", "catalogue/window_3"):
        for kind in ("exercise", "solution"):
            use.open(f"#example={path}&view={kind}")
            sheets_of = printed(use)
            yield f"the {kind} of {path} is one page", sheets_of == 1, sheets_of
    use.open("#example=types/test_and_set&view=solution")
    text = use.value("document.querySelector('.sheet').innerText.replace(/\\s+/g, ' ')")
    parts = ["Solution: How many processes can agree through test_and_set?", "zero → one one → one", "yes: no pair stands on both sides", "the number is at least 2."]
    parts += ["Why not 3?", "A first: p0 tas, p1 tas; B first: p2 tas, p1 tas.", "p1 gets one and reads one in both"]
    yield "the solution has the reason", all(it in text for it in parts), [it for it in parts if it not in text]
    use.value("document.querySelector('[data-kind=exercise]').click()")
    text = use.value("document.querySelector('.sheet').innerText")
    yield "the exercise asks, and does not tell", "Why not 3?" in text and not any(it in text for it in ("zero → one", "p0 tas", "yes:")), text
    yield "it has gaps", use.count(".sheet .gap") == 4 + 8 + 2 + 4, use.count(".sheet .gap")
    use.open("#example=types/test_and_set&screen=print")
    use.value("(() => { window.print = () => (window.hasPrinted = true); })()")
    use.value("document.querySelector('#sheet-choice button:last-child').click()")
    yield "it is printed from the page", use.value("window.hasPrinted") and printed(use) == 1, ""
    use.open("#example=types/three_shot&view=exercise&lang=de")
    yield "it is German", use.texts(".sheet h1") == ["Wie viele Prozesse können sich durch three_shot einigen?"], use.texts(".sheet h1")


def printed_run(use):
    """A run on paper."""
    use.open(f"{RUN},x2,0,0,1,1,1")
    use.call("Emulation.setEmulatedMedia", media="print")
    use.call("Emulation.setDeviceMetricsOverride", width=711, height=1000, deviceScaleFactor=1, mobile=False)
    use.until("document.querySelectorAll('.rows-on-paper svg').length > 1", 5)
    head = use.value("(it => [it.checkVisibility(), it.textContent])(document.getElementById('type-name'))")
    yield "the name of the type is its heading", head == [True, "three_shot"], head
    log = use.value("[...document.querySelectorAll('.happened h3, .log li')].filter(it => it.checkVisibility()).map(it => it.textContent)")
    yield "it has what happened, whole", log[0] == "What happened" and len(log) == 14, log
    least = 10 / 72 * 96 - 0.1
    small = use.value("[...document.querySelectorAll('#protocol :is(li, td, th, h3, p)')].filter(it => it.checkVisibility()).map(it => parseFloat(getComputedStyle(it).fontSize))")
    yield "in letters of 10 points", small and min(small) >= least, min(small)
    rows = use.value("[...document.querySelectorAll('.rows-on-paper svg')].map(it => it.getBoundingClientRect()).map(it => [it.left, it.right])")
    scales = use.value("[...document.querySelectorAll('.rows-on-paper svg')].map(it => it.getBoundingClientRect().width / it.getAttribute('width'))")
    yield "the picture of the run stands in rows, not made smaller", len(rows) > 1 and max(it[1] for it in rows) <= 712 and min(scales) > 0.99, (rows, scales)
    as_before(use)


BACK = "void setTimeout(() => history.back(), 0)"


def back_button(use):
    """The browser's back button undoes what was changed, and does not leave."""
    use.open("#example=types/test_and_set")
    use.choose("types/three_shot")
    use.do("await Cnum.page.edit(Cnum.edits.addState(new Cnum.TableText(Cnum.page.text)));")
    changed = use.table()
    use.value("document.querySelector('#screens [data-screen=run]').click()")
    use.until("location.hash.endsWith('&screen=run')", 5)
    use.value(BACK)
    yield "another screen", use.until("document.body.dataset.screen === 'why'", 5) and use.table() == changed, use.value("location.hash")
    use.value(BACK)
    yield "a change of the table", use.until("location.hash === '#example=types/three_shot'", 5) and use.has_number("3"), use.value("location.hash")
    yield "and redo has it", use.until("!document.getElementById('redo').disabled", 5), ""
    use.value(BACK)
    yield "another example", use.until("location.hash === '#example=types/test_and_set'", 5) and use.has_number("2"), use.value("location.hash")
    use.value(BACK.replace("back", "forward"))
    yield "and forward again", use.until("location.hash === '#example=types/three_shot'", 5) and use.has_number("3"), use.value("location.hash")
    use.value("document.querySelector('#screens [data-screen=run]').click()")
    use.until("location.hash.endsWith('&screen=run')", 5)
    for _ in range(2):
        use.press_code("Digit1")
        use.do("await Cnum.page.protocol.update(); await Cnum.page.address.keep();")
    use.value(BACK)
    yield "a step of a run", use.until("document.querySelectorAll('.log li').length === 1", 5), use.texts(".log li")
    yield f"{READY} still holds", use.value(READY), ""


def plain_pictures(use):
    """Saved pictures have their look as attributes, for a renderer without style sheets."""
    use.open(RUN)
    for name, picture in (("states", "Cnum.page.mainPicture()"), ("run", "document.querySelector('.space-time')"), ("tournament", "document.querySelector('.tournament')")):
        parsed = f"new DOMParser().parseFromString(Cnum.svgText({picture}), 'image/svg+xml')"
        bare = use.value(f"[...{parsed}.querySelectorAll('rect, path, circle, text')].filter(it => !it.hasAttribute('fill')).map(it => it.outerHTML)")
        styles = use.value(f"{parsed}.querySelectorAll('style, [style], parsererror').length")
        lines = use.value(f"[...{parsed}.querySelectorAll('.arrow, .way, .world-line')].filter(it => it.getAttribute('fill') !== 'none' || !it.getAttribute('stroke')).length")
        yield f"the picture {name}", (bare, styles, lines) == ([], 0, 0), (bare[:2], styles, lines)


def runs_of_program(use):
    """How often the program runs for one table: the number and its reasons are searched for once, and the other numbers once."""
    use.open("#example=types/idle")
    use.value("""(() => {
        window.runs = [];
        const { run } = Cnum.Runner.prototype;
        Cnum.Runner.prototype.run = function (words, ...rest) { window.runs.push(words.join(' ')); return run.call(this, words, ...rest); };
    })()""")
    use.choose("types/three_shot")
    use.has_number("3", "number-without")
    runs = use.value("window.runs")
    searches = [it for it in runs if it.split()[0] in ("classify", "find", "why")]
    yield "two searches for a table", searches == ["classify --recoverable --without-read --as json -", "why --as json -"], searches
    yield "and four other runs", len(runs) == 6, json.dumps(runs)


# The back button comes first, since a browser keeps the last 50 entries of its history alone.
ALL = (back_button, screens, large_view, one_screen, failing_run, failing_unread_run, sheets, printed_run, plain_pictures, runs_of_program)
# The parts that also run in a browser that is not driven by DevTools.
WITHOUT_DEVTOOLS = (back_button, one_screen, plain_pictures, runs_of_program)
