"""The page `./page` in a real browser: what it shows is what the program prints, read here anew, for each thing that a person can do on it. And what it
refuses: files, hosts and origins that are not its own, and names that would be more than text."""

import base64
import concurrent.futures
import contextlib
import http.client
import json
import os
import re
import signal
import subprocess
import sys
import time
from urllib.parse import urlencode

sys.path.insert(0, os.path.join(os.path.dirname(os.path.abspath(__file__)), "lib"))
import browser as driver
from harness import TOP, Files, Tally, build, run
from page import LEVEL, SVG, TRACE, Served, Told

if driver.missing():
    print(f"not tried: the page in a browser, as {driver.missing()} is not installed")
    print("0 passed, 0 failed, 1 skipped")
    sys.exit(0)

AUDIT = os.path.join(TOP, "examples", "audit", "audit.log")
LARGEST = 64 * 1024 * 1024
# nothing is asked for any more, and all of it is drawn
RESTS = "return document.readyState === 'complete' && !document.body.hasAttribute('aria-busy') && document.getElementById('status').textContent !== 'The noisy client is read.'"

# in each case what was started ends: what runs in the background of a shell ignores an interrupt, unless it is told so
signal.signal(signal.SIGINT, signal.default_int_handler)
signal.signal(signal.SIGTERM, lambda *_: sys.exit(1))
tally = Tally()
program = build()
files = Files()
told = Told(program, files)
said, table_of_one, table_of_two, requests_of = told.said, told.table_of_one, told.table_of_two, told.requests_of
hands_of, sharers_of, picture_of = told.hands_of, told.sharers_of, told.picture_of


# what the page shows


def rests():
    if not page.until(RESTS):
        print("the page does not come to rest")


def shown(table="flows"):
    """The texts of a table's cells."""
    return page.run("return [...document.querySelectorAll(`#${arguments[0]} tbody tr`)].map(row => [...row.cells].map(it => it.innerText.trim()))", table)


def fault(place):
    return page.run("const it = document.getElementById(arguments[0] + '-fault'); return it.checkVisibility() ? it.textContent : null", place)


def faults():
    return page.run("return [...document.querySelectorAll('.fault')].filter(it => it.checkVisibility()).map(it => it.id)")


def is_old():
    """Whether all results are marked as those of something else than stands in the fields."""
    return page.run("return [...document.querySelectorAll('.result')].every(it => it.matches('.old'))")


def begin(width=1400, height=1000):
    page.resize(width, height)
    page.go(served.address)
    rests()


def drop(name, content):
    page.run(
        """const moved = new DataTransfer()
        moved.items.add(new File([Uint8Array.from(atob(arguments[1]), it => it.charCodeAt(0))], arguments[0]))
        for (const kind of ['dragenter', 'dragover', 'drop'])
          document.getElementById('file-place').dispatchEvent(new DragEvent(kind, { bubbles: true, cancelable: true, dataTransfer: moved }))""",
        name, base64.b64encode(content).decode(),
    )
    rests()


def drop_file(path, x, y):
    """Drags a file of the machine over a point of the page, and drops it there, as the browser itself has it."""
    data = {"items": [], "files": [path], "dragOperationsMask": 1}
    over = []
    for kind in ("dragEnter", "dragOver", "drop"):
        page.command("Input.dispatchDragEvent", type=kind, x=x, y=y, data=data)
        over.append(page.run("return document.body.matches('.over')"))
    page.until("return document.getElementById('file-name').textContent === arguments[0]", os.path.basename(path))
    rests()
    return over[1:]


def write(field, text):
    page.write(f"#{field}", text)
    rests()


def press(text):
    page.keys(text)
    rests()


def focused():
    return page.run("const it = document.activeElement; return it.id || it.dataset.flow || (it.dataset.queue ? `queue ${it.dataset.queue}` : it.name ? `${it.name} ${it.value}` : it.closest('[id]')?.id)")


# the checks


def check_begin():
    begin()
    tally.check("the noisy client", shown(), table_of_one())
    root, words, rows = picture_of()
    tally.check("the picture", page.run("const it = document.getElementById('picture'); return [it.alt, it.complete, it.naturalWidth, it.naturalHeight]"), [words, True, int(root.get("width")), int(root.get("height"))])
    tally.check("the config", json.loads(page.text("#config")), LEVEL)
    check_colours("the noisy client", root, rows)
    page.command("Page.setBypassCSP", enabled=True)
    begin()
    text = page.run("return fetch(document.getElementById('picture').src).then(it => it.text())")
    tally.check("the picture is the program's", text.split("\n"), [*said("picture")[0], ""])
    page.command("Page.setBypassCSP", enabled=False)
    begin()
    tally.check("nothing is refused", faults(), [])
    tally.check("the status", page.text("#status"), "The noisy client: 703 requests, 394 executed, 77 rejected, 232 gave up. The longest wait is 7,999 ms.")


def check_colours(name, root, rows):
    """Each flow has the colour of its row in the picture."""
    styles = root.find(f"{SVG}style").text.split("@media(prefers-color-scheme:dark)")
    rules = re.findall(r"\.f(\d+) { background: #(\w+); }", open(os.path.join(TOP, "browser", "page.css")).read())
    for scheme, style, own in zip(("light", "dark"), styles, (rules[:13], rules[13:])):
        page.prefer(scheme)
        colours = dict(page.run(COLOURS))
        tally.check(f"the colours of the flows of {name}, {scheme}", colours, {it: re.search(rf"\.f{row}{{fill:#(\w+)}}", style)[1] for it, row in rows.items()})
        tally.check(f"the colours of the rows, {scheme}", own, re.findall(r"\.f(\d+){fill:#(\w+)}", style))
    page.prefer("light")


COLOURS = """
const hexadecimal = colour => colour.match(/\\d+/g).map(it => Number(it).toString(16).padStart(2, 0)).join('')
return [...document.querySelectorAll('.swatch')].map(it => [it.parentNode.innerText.trim(), hexadecimal(getComputedStyle(it).backgroundColor)])
"""
# the busy flow has more requests, and the late one waits
FEW = "".join(json.dumps({"schema": "s", "distinguisher": name, "arrivesAt": at, "runsFor": 9}) + "\n" for name, at in [("busy", 0), ("busy", 100), ("busy", 200), ("late", 300), ("late", 300)])


SMALL = b"".join(
    json.dumps({"schema": schema, "distinguisher": name, "arrivesAt": at, "runsFor": time}).encode() + b"\n"
    for schema, name, at, time in [("batch", "crawler", 0, 100)] * 6 + [("users", "alice", 50, 20), ("users", "alice", 60, 20), ("users", "bob", 400, 7)]
) + b'{"hash":17,"arrivesAt":1,"runsFor":5}\n'


def check_files():
    begin()
    small = {**LEVEL, "limit": 2, "queues": 2, "handSize": 1, "queueLengthLimit": 2}
    drop("small.jsonl", SMALL)
    trace = files("small.jsonl", SMALL)
    tally.check("a trace that is dropped", [[it[0].split("\n")[0], *it[1:]] for it in shown()], table_of_one(trace=trace))
    for field in ("handSize", "limit", "queues", "queueLengthLimit"):
        write(field, str(small[field]))
    tally.check("a small level", [[it[0].split("\n")[0], *it[1:]] for it in shown()], table_of_one(trace=trace, config=small))
    tally.check("schemas where they differ", sorted(it[0].split("\n") for it in shown()), [["0000000000000011"], ["All"], ["alice", "users"], ["bob", "users"], ["crawler", "batch"]])
    tally.check("the name of the file", page.text("#file-name"), "small.jsonl")
    page.type("#file", TRACE)
    rests()
    tally.check("a trace that is chosen", shown(), table_of_one(config=small))
    dropped = files("dropped.jsonl", SMALL)
    tally.check("a file is over the page, anywhere, until it is dropped", drop_file(dropped, 900, 600), [True, False])
    tally.check("a file that the browser drops", [[it[0].split("\n")[0], *it[1:]] for it in shown()], table_of_one(trace=dropped, config=small))
    page.type("#file", TRACE)
    rests()
    page.click("#flows button[data-flow]")
    tally.check("requests are open", page.run("return document.getElementById('requests-place').hidden"), False)
    # the first one is larger, and takes longer to read
    page.run("""for (const [name, size] of [['first', 3e7], ['second', 0]]) {
        const moved = new DataTransfer()
        moved.items.add(new File([new Uint8Array(size)], name))
        document.dispatchEvent(new DragEvent('drop', { bubbles: true, cancelable: true, dataTransfer: moved }))
      }""")
    rests()
    tally.check("of two files the last one", (page.text("#file-name"), faults(), shown()), ("second", [], table_of_one(trace=files("none", ""), config=small)))
    tally.check("no flow has a queue of an empty file", page.text("#queues-list-hint"), "There are no flows, so no queue is in a hand.")
    tally.check("the requests of another file are closed", page.run("return document.getElementById('requests-place').hidden"), True)
    drop("few.jsonl", FEW.encode())
    write("limit", "1")
    root, _, rows = picture_of(trace=files("few.jsonl", FEW), config={**small, "limit": 1})
    check_colours("a few requests", root, rows)
    write("limit", "2")
    bad = open(os.path.join(TOP, "README.md"), "rb").read()
    drop("README.md", bad)
    tally.check("a bad file", (fault("file"), faults()), (said("simulate", trace=os.path.join(TOP, "README.md"), config=small)[1], ["file-fault"]))
    tally.check("what was shown before is marked", is_old(), True)
    page.click("#example")
    rests()
    tally.check("the noisy client again", (shown(), faults(), page.run("return document.querySelectorAll('.old').length")), (table_of_one(), [], 0))
    large = files("large.jsonl", b"")
    os.truncate(large, LARGEST + 1)
    page.type("#file", large)
    page.until("return !document.getElementById('file-fault').hidden")
    tally.check("a large file", (fault("file"), faults()), (f"page: the file has {LARGEST + 1} bytes: at most {LARGEST} may be there", ["file-fault"]))
    write("limit", "3")
    tally.check("a setting does not bring the file before it back", (page.text("#file-name"), page.text("#file-about"), faults(), is_old()), ("large.jsonl", "", ["file-fault"], True))


def check_audit():
    begin()
    page.log()
    page.type("#file", AUDIT)
    page.until("return !document.getElementById('audit').hidden")
    tally.check("an audit log: the schema is asked for", focused(), "schema")
    write("limit", "11")
    want = ("audit.log", "", "audit.log is an audit log. Of which flow schema are its requests?", True, table_of_one())
    tally.check("a setting changes nothing before the log is read", (page.text("#file-name"), page.text("#file-about"), page.text("#status"), is_old(), shown()), want)
    write("limit", "10")
    page.run("document.querySelector('#audit details').open = true")
    write("since", "noon")
    page.click("#audit button")
    page.until("return !document.getElementById('since-fault').hidden")
    tally.check("a bad instant", fault("since"), run(program, ["trace", "--since", "noon", "--", AUDIT, "x"])[2].decode().strip())
    write("since", "2026-01-01T00:00:00Z")
    write("schema", "a <b> schema")
    page.keys(driver.ENTER)
    page.until("return document.getElementById('status').textContent.startsWith('audit.log:')")
    rests()
    trace = files("audit.jsonl", run(program, ["trace", "--", AUDIT, "a <b> schema"])[1])
    tally.check("the flows of an audit log", shown(), table_of_one(trace=trace))
    tally.check("their schema", "a <b> schema" in page.text("#flows-hint"), True)
    page.run("document.getElementById('by').value = 'namespace'")
    page.click("#audit button")
    rests()
    trace = files("audit.jsonl", run(program, ["trace", "--by=namespace", "--", AUDIT, "a <b> schema"])[1])
    tally.check("the namespaces of an audit log", shown(), table_of_one(trace=trace))
    lines = open(AUDIT).read().split("\n")
    many = files("many.log", "\n".join([next(it for it in lines if "ResponseComplete" in it)] * 10_001) + "\n")
    page.run("document.getElementById('some').open = false; for (const id of ['user', 'since', 'until']) document.getElementById(id).value = ''")
    page.type("#file", many)
    page.until("return document.getElementById('file-name').textContent === 'many.log' && !document.getElementById('audit').hidden")
    page.click("#audit button")
    page.until("return !document.getElementById('file-fault').hidden")
    trace = files("many.jsonl", run(program, ["trace", "--by=namespace", "--", many, "x"])[1])
    want = run(program, ["picture", files("config.json", json.dumps(LEVEL)), trace, "8s"])[2].decode().strip()
    tally.check("a log of too many requests", (fault("file"), want[:24], page.run("return document.getElementById('some').open")), (want, "apf: there are more than", True))
    turned = json.dumps({**json.loads(next(it for it in lines if "ResponseComplete" in it)), "responseStatus": {"code": 429}})
    log = files("turned.log", "\n".join([turned, *lines]))
    drop("turned.log", open(log, "rb").read())
    page.click("#audit button")
    rests()
    want = run(program, ["trace", "--", log, "x"])[2].decode().strip()
    tally.check("what is said beside a log", (page.text("#file-note"), want[:9]), (want, "apf: 1 of"))
    tally.check("the browser says nothing of a log", page.log(), [])


def rejected():
    return [it[3] for it in shown()]


def check_settings():
    begin()
    before = rejected()
    page.run("document.getElementById('limit-slider').focus()")
    press(driver.RIGHT)
    want = table_of_one(config={**LEVEL, "limit": 11})
    tally.check("the limit by its slider and a key", (page.run("return document.getElementById('limit').value"), shown()), ("11", want))
    tally.check("the rejected change", rejected() != before, True)
    counts = [want[-1][it] for it in (2, 3, 4)]
    tally.check("what changed", page.text("#status").split(". Longest wait ")[0], "Limit 10 → 11: executed 394 → {}, rejected 77 → {}, gave up 232 → {}".format(*counts))
    left, top, width, height = page.run("const it = document.getElementById('limit-slider').getBoundingClientRect(); return [it.left, it.top, it.width, it.height]")
    page.click_at(int(left + width * 0.3), int(top + height / 2))
    rests()
    limit = int(page.run("return document.getElementById('limit').value"))
    tally.check("the limit by its slider and a pointer", (limit > 15, shown()), (True, table_of_one(config={**LEVEL, "limit": limit})))
    write("limit", "10")
    tally.check("the slider follows its field", page.run("return document.getElementById('limit-slider').getAttribute('aria-valuetext')"), "10 seats")
    level = dict(LEVEL)
    for field, key, value in (("queues", driver.RIGHT, "65"), ("handSize", driver.LEFT, "7"), ("queueLengthLimit", driver.LEFT, "49")):
        page.run("document.getElementById(`${arguments[0]}-slider`).focus()", field)
        press(key)
        level[field] = int(value)
        tally.check(f"{field} by its slider and a key", (page.run("return document.getElementById(arguments[0]).value", field), json.loads(page.text("#config")), shown()), (value, level, table_of_one(config=level)))
    for field, value in (("queues", "16"), ("handSize", "3"), ("queueLengthLimit", "9"), ("limit", "7")):
        write(field, value)
    write("patience", "500ms")
    level = {**LEVEL, "queues": 16, "handSize": 3, "queueLengthLimit": 9, "limit": 7}
    tally.check("each field", (shown(), json.loads(page.text("#config"))), (table_of_one(config=level, patience="500ms"), level))
    tally.check("the picture is that of the fields", page.run("return document.getElementById('picture').alt"), picture_of(config=level, patience="500ms")[1])
    for patience, unit, slider in (("1m", "", "60s"), ("700000", "\u00b5s", "700ms"), ("1.5s", "", "1s")):
        write("patience", patience)
        got = page.run("const it = document.getElementById('patience-slider'); return [it.getAttribute('aria-valuetext'), document.querySelector('#patience + .unit').innerText, Number(it.value)]")
        tally.check(f"a patience of {patience}", (got, shown()), ([f"{patience} {unit}".strip(), unit, got[2]], table_of_one(config=level, patience=patience)))
        page.run("const it = document.getElementById('patience-slider'); it.dispatchEvent(new Event('input', { bubbles: true }))")
        rests()
        tally.check(f"the slider stands by {patience}", page.run("return document.getElementById('patience').value"), slider)
    page.run("document.getElementById('patience-slider').focus()")
    press(driver.HOME)
    tally.check("the patience by its slider", (page.run("return document.getElementById('patience').value"), shown()), ("0", table_of_one(config=level, patience="0")))
    page.click("input[value=Reject]")
    rests()
    level = {"limit": 7, "limitResponse": "Reject"}
    tally.check("Reject", (shown(), json.loads(page.text("#config"))), (table_of_one(config=level, patience="0"), level))
    tally.check("without queues", page.run("return [document.getElementById('queues').matches(':disabled'), document.querySelectorAll('#queues-list button').length]"), [True, 0])
    page.command("Browser.grantPermissions", permissions=["clipboardReadWrite", "clipboardSanitizedWrite"], origin=served.address.rstrip("/"))
    page.click("#copy")
    page.until("return document.getElementById('copy').textContent !== 'Copy'")
    tally.check("the config is copied", (page.text("#copy"), page.run("return navigator.clipboard.readText()")), ("Copied", page.run("return document.getElementById('config').textContent")))
    page.command("Browser.resetPermissions")
    page.run("getSelection().removeAllRanges(); navigator.clipboard.writeText = () => Promise.reject()")
    page.until("return document.getElementById('copy').textContent === 'Copy'")
    page.click("#copy")
    page.until("return document.getElementById('copy').textContent !== 'Copy'")
    tally.check("or it is selected where that may not be", (page.text("#copy"), page.run("return getSelection().toString().trim()")), ("Selected", page.text("#config").strip()))


def check_faults():
    begin()
    places = [("limit", "0", "limit"), ("limit", "abc", "limit"), ("limit", "", "limit"), ("limit", "1.5", "limit"), ("queues", "1025", "queues"), ("handSize", "15", "handSize"), ("queueLengthLimit", "-1", "queueLengthLimit")]
    for field, value, place in places:
        kept = page.run("return document.getElementById(arguments[0]).value", field)
        write(field, value)
        number = json.loads(value) if re.fullmatch(r"-?[0-9.]+", value) else value
        want = said("simulate", config={**LEVEL, field: number})[1]
        tally.check(f"{field} {value!r}", (fault(place), faults(), want[:5]), (want, [f"{place}-fault"], "apf: "))
        tally.check(f"{field} {value!r} is marked", page.run("return document.getElementById(arguments[0]).ariaInvalid", field), "true")
        write(field, kept)
        tally.check(f"{field} {kept} again", faults(), [])
    for value in ("8 s", "-1", "1001s", "--help"):
        write("patience", value)
        tally.check(f"patience {value!r}", (fault("patience"), faults()), (run(program, ["simulate", "--", files("c", json.dumps(LEVEL)), TRACE, value])[2].decode().strip(), ["patience-fault"]))
    begin()
    bad = {**LEVEL, "limit": 0}
    write("limit", "0")
    tally.check("what has a fault is not kept", page.run("return document.getElementById('keep').disabled"), True)
    write("limit", "10")
    page.click("#keep")
    rests()
    write("limit", "0")
    tally.check("a fault beside what is kept", (fault("limit"), faults()), (said("compare", config=LEVEL, other=bad)[1], ["limit-fault"]))
    page.click("#back")
    rests()
    page.click("#let-go")
    rests()
    # faster than the program says that it is a fault
    page.run("const it = document.getElementById('limit'); it.value = '0'; it.dispatchEvent(new Event('input', { bubbles: true })); document.getElementById('keep').click()")
    rests()
    write("limit", "10")
    tally.check("a fault of what is kept", (fault("kept"), faults(), is_old()), (said("compare", config=bad, other=LEVEL)[1], ["kept-fault"], True))
    tally.check("what leads out of it is not faint", page.run("return ['kept', 'kept-fault', 'let-go', 'flows'].map(it => { let sum = 1; for (let at = document.getElementById(it); at; at = at.parentElement) sum *= getComputedStyle(at).opacity; return sum === 1 })"), [True, True, True, False])
    page.click("#let-go")
    rests()
    tally.check("it is let go", (shown(), faults()), (table_of_one(), []))


def check_marks(name, table):
    """What is marked as better or worse is so by the numbers that are shown."""
    marks = page.run("return [...document.querySelectorAll('#flows tbody tr')].map(row => [...row.cells].slice(3).filter((it, place) => place % 2 === 0).map(it => it.className))")
    numbers = [[float(it.replace(",", "")) for it in row[2:]] for row in table]
    tally.check(name, marks, [["worse" if now > kept else "better" if now < kept else "same" for kept, now in zip(row[::2], row[1::2])] for row in numbers])


def check_two():
    begin()
    page.click("#keep")
    rests()
    write("handSize", "2")
    other = {**LEVEL, "handSize": 2}
    want = table_of_two(config=LEVEL, other=other)
    tally.check("two levels", shown(), want)
    tally.check("the worst change comes first", [it[0] for it in shown()][:2], ["crawler", "bob"])
    check_marks("better and worse", want)
    write("limit", "14")
    write("handSize", "8")
    check_marks("what is written alike is the same", table_of_two(config=LEVEL, other={**LEVEL, "limit": 14}))
    write("handSize", "2")
    write("limit", "5")
    tally.check("two levels, changed again", shown(), table_of_two(config=LEVEL, other={**other, "limit": 5}))
    page.click("#flows button[data-flow]")
    tally.check("the requests are those of now", shown("requests")[:5], requests_of(shown()[0][0], config={**other, "limit": 5})[:5])
    page.click("#back")
    rests()
    tally.check("back to the kept one", shown(), table_of_two(config=LEVEL, other=LEVEL))
    page.click("#let-go")
    rests()
    tally.check("one level again", shown(), table_of_one())


def check_details():
    begin()
    for flow in ("alice", "crawler"):
        page.run("[...document.querySelectorAll('#flows tbody tr')].find(it => it.innerText.startsWith(arguments[0])).cells[5].click()", flow)
        want = requests_of(flow)
        tally.check(f"the requests of {flow}", (page.text("#requests-head"), shown("requests")), (f"Requests of {flow}", want[:500]))
    page.click("#requests-all")
    tally.check("all requests of the crawler", shown("requests"), want)
    tally.check("its hand", f"Its hand is the queues {', '.join(hands_of()['crawler'])}." in page.text("#requests-hint"), True)
    hands = hands_of()
    held = sorted({it for hand in hands.values() for it in hand}, key=int)
    tally.check("the queues", page.run("return [...document.querySelectorAll('#queues-list button')].map(it => [it.dataset.queue, it.getAttribute('aria-label')])"), [[it, f"Queue {it}, {(count := sum(it in hand for hand in hands.values()))} flow{'s' * (count > 1)}"] for it in held])
    for queue in ("36", "5"):
        page.click(f"#queues-list button[data-queue='{queue}']")
        tally.check(f"who shares queue {queue}", shown("queue"), sharers_of(queue))
    # the strip of queue 46, by the numbers beside the strips
    root = picture_of()[0]
    group = next(it for it in root.iter(f"{SVG}g") if (it.find(f"{SVG}text") is not None and it.find(f"{SVG}text").text == "Queues "))
    number = next(it for it in group.iter(f"{SVG}text") if it.text == "46")
    y = int(re.search(r" (\d+)\)", group.get("transform"))[1]) + int(number.get("y")) - 4
    page.run("document.getElementById('picture').scrollIntoView({block: 'start'})")
    left, top, width, height = page.run("const it = document.getElementById('picture').getBoundingClientRect(); return [it.left, it.top, it.width, it.height]")
    page.click_at(int(left + width / 2), int(top + y * height / int(root.get("height"))))
    tally.check("a click on a queue in the picture", (page.text("#queue-head"), shown("queue")), ("Queue 46 is in the hand of 2 flows", sharers_of("46")))
    write("handSize", "2")
    level = {**LEVEL, "handSize": 2}
    tally.check("the requests change with the settings", shown("requests"), requests_of("crawler", config=level))
    tally.check("the sharers, too", shown("queue"), sharers_of("46", config=level))


def check_keyboard():
    """From the beginning of the page with keys alone."""
    begin()
    seen, unseen = [], []

    def go(place, most=40):
        """Presses Tab until the focus is there."""
        for _ in range(most):
            page.keys(driver.TAB)
            seen.append(focused())
            if not page.run("const it = getComputedStyle(document.activeElement); return document.activeElement.matches(':focus-visible') && it.outlineStyle !== 'none' && parseFloat(it.outlineWidth) >= 2"):
                unseen.append(seen[-1])
            if seen[-1] == place:
                return True
        return False

    tally.check("Tab comes to the limit", go("limit-slider"), True)
    press(driver.UP + driver.UP)
    tally.check("a key moves the limit", shown(), table_of_one(config={**LEVEL, "limit": 12}))
    tally.check("Tab comes to keep", go("keep"), True)
    press(driver.SPACE)
    tally.check("a key keeps", page.text("#kept"), "Kept: limit 12, 64 queues, hand size 8, queue length 50. The patience and the charge of now hold for both.")
    tally.check("the focus goes on", focused(), "let-go")
    press(driver.SPACE)
    flow = page.run("return document.querySelector('#flows button').dataset.flow")
    tally.check("Tab comes to the flows", go(flow), True)
    page.keys(driver.DOWN)
    tally.check("an arrow goes to the next flow", page.run("return document.activeElement.innerText.trim()"), shown()[1][0])
    page.keys(driver.ENTER)
    tally.check("Enter shows its requests", shown("requests"), requests_of(shown()[1][0], config={**LEVEL, "limit": 12}))
    tally.check("the focus stays", page.run("return document.activeElement.innerText.trim()"), shown()[1][0])
    tally.check("that is said", page.run("return document.getElementById('said').textContent"), f"The requests of {shown()[1][0]} are shown below the flows.")
    for limit in (13, 12):
        page.run("const it = document.getElementById('limit'); it.value = arguments[0]; it.dispatchEvent(new Event('input', { bubbles: true }))", limit)
        rests()
    tally.check("the focus stays where the table is drawn again", page.run("return document.activeElement.innerText.trim()"), shown()[1][0])
    queue = page.run("return document.querySelector('#queues-list button').dataset.queue")
    tally.check("Tab comes to the queues", go(f"queue {queue}"), True)
    page.keys(driver.END + driver.LEFT + driver.ENTER)
    last = page.run("return [...document.querySelectorAll('#queues-list button')].at(-2).dataset.queue")
    tally.check("Enter shows who shares the queue", shown("queue"), sharers_of(last, config={**LEVEL, "limit": 12}))
    tally.check("Tab comes to its end", go("queue-close"), True)
    page.keys(driver.ENTER)
    tally.check("a key closes", (page.run("return document.getElementById('queue-place').hidden"), focused()), (True, f"queue {last}"))
    tally.check("each thing that has the focus shows it", unseen, [])
    controls = ["file", "example", "limit", "limit-slider", "queues", "handSize-slider", "patience", "patience-slider", "config", "copy", "requests-close"]
    tally.check("Tab comes to each", [it for it in controls if it not in seen], [])
    unnamed = page.run("return [...document.querySelectorAll('input, select, button, [tabindex]')].filter(it => it.checkVisibility() && !(it.labels?.length || it.ariaLabel || it.getAttribute('aria-labelledby') || it.innerText?.trim())).map(it => it.outerHTML)")
    tally.check("each has a name", unnamed, [])


HOSTILE = ["<img src=x onerror=window.ran=1>", "</title></text><script>window.ran=1</script>", '"><svg onload=window.ran=1>', "\u202e\u0000\u001b[31m\n", "', \" of \"a\" \"b", " ", "", "{{1}}\\", "\u2028x"]


def check_hostile():
    begin()
    content = "".join(json.dumps({"schema": f"{name}schema", "distinguisher": name, "arrivesAt": it, "runsFor": 9}) + "\n" for it, name in enumerate(HOSTILE))
    page.log()
    drop("<img src=x onerror=window.ran=1>.jsonl", content.encode())
    trace = files("hostile.jsonl", content)
    want = [it[0] for it in table_of_one(trace=trace)]
    got = page.run("return [...document.querySelectorAll('#flows tbody bdi')].map(it => it.textContent)")
    tally.check("hostile names are text", [it.strip() for it in got], [it.strip() for it in want[:-1]])
    tally.check("what a terminal would obey is not shown", [it for it in "".join(got) if it < " " or it == "\u202e"], [])
    for number in range(len(HOSTILE)):
        page.run("document.querySelectorAll('#flows tbody button')[arguments[0]].click()", number)
    page.run("document.querySelectorAll('#queues-list button').forEach(it => it.click())")
    tally.check("the name of the file is text", page.text("#file-name"), "<img src=x onerror=window.ran=1>.jsonl")
    tally.check("nothing of them runs", page.run("return [window.ran ?? null, document.images.length, document.scripts.length, document.querySelectorAll('svg, [onerror], [onload]').length]"), [None, 1, 1, 0])
    tally.check("the browser says nothing of it", page.log(), [])


def check_sizes():
    for width in (400, 1400, 2000):
        begin(width, 700)
        edges = page.run("return [...document.querySelectorAll('.setting')].map(it => [...it.querySelectorAll('input')].flatMap(one => [one.getBoundingClientRect().left, one.getBoundingClientRect().right]))")
        tally.check(f"the fields and the sliders stand below one another at {width}", edges, [edges[0]] * 5)
        tally.check(f"each setting's name has room at {width}", page.run("return [...document.querySelectorAll('.setting label')].filter(it => it.scrollWidth > it.clientWidth).map(it => it.innerText)"), [])
    page.type("#file", AUDIT)
    page.until("return !document.getElementById('audit').hidden")
    page.click("#audit button")
    rests()
    tally.check("a cluster's flows", len(shown()), 7)
    for width in (1400, 1700, 1950, 2000):
        page.resize(width, 900)
        tally.check(f"the table and the picture of a cluster's flows are seen whole at {width}", page.run("return ['flows-scroll', 'picture-scroll'].filter(it => document.getElementById(it).scrollWidth > document.getElementById(it).clientWidth)"), [])
    begin(900, 900)
    places = page.run("return ['file-place', 'config'].map(it => document.getElementById(it).closest('.asked > *').getBoundingClientRect()).map(it => [it.left, it.top, it.bottom])")
    tally.check("the config stands below the requests at 900", (places[0][0] == places[1][0], 0 < places[1][1] - places[0][2] < 20), (True, True))
    begin(400, 900)
    name = "system:serviceaccount:kube-system:generic-garbage-collector"
    drop("long.jsonl", json.dumps({"schema": "s", "distinguisher": name, "arrivesAt": 0, "runsFor": 9}).encode() + b"\n")
    lines = page.run("const it = document.querySelector('#flows bdi'); return [it.textContent, it.offsetHeight / parseFloat(getComputedStyle(it).fontSize) < 10]")
    tally.check("a long name has room at 400", lines, [name, True])
    for scheme in ("light", "dark"):
        page.prefer(scheme)
        for width in (400, 2000):
            begin(width, 900)
            page.click("#keep")
            rests()
            page.click("#flows button[data-flow]")
            page.click("#queues-list button")
            write("handSize", "2")
            wide = page.run("return [document.documentElement.scrollWidth, innerWidth]")
            tally.check(f"no page to move sideways at {width}, {scheme}", wide[0] <= wide[1], True)
            tally.check(f"no text is faint at {width}, {scheme}", page.run(FAINT), [])
    page.prefer("light")


# each text of its own whose contrast with what stands behind it is less than 4.5
FAINT = """
const numbers = colour => colour.match(/[\\d.]+/g).map(Number)
const light = colour => numbers(colour).slice(0, 3).map(it => (it /= 255) <= .03928 ? it / 12.92 : ((it + .055) / 1.055) ** 2.4).reduce((sum, it, at) => sum + it * [.2126, .7152, .0722][at], 0)
const behind = it => { while (it && (numbers(getComputedStyle(it).backgroundColor)[3] ?? 1) === 0) it = it.parentElement; return it ? getComputedStyle(it).backgroundColor : 'rgb(255,255,255)' }
const own = it => [...it.childNodes].some(one => one.nodeType === 3 && one.data.trim())
return [...document.body.querySelectorAll('*')].filter(it => own(it) && it.checkVisibility() && !it.matches('small, option, noscript')).filter(it => {
  const [one, other] = [light(getComputedStyle(it).color), light(behind(it))].sort((a, b) => b - a)
  return (one + .05) / (other + .05) < 4.5
}).map(it => `${it.tagName}.${it.className} ${it.innerText.slice(0, 30)}`)
"""


def check_hosts():
    own = f"127.0.0.1:{served.port}"
    words = f"/simulate?{urlencode({'config': json.dumps(LEVEL), 'patience': '8s'})}"
    content = open(TRACE, "rb").read()
    size = str(len(content))
    for host, want in ((own, 200), (f"localhost:{served.port}", 200), ("evil.example", 403), (f"evil.example:{served.port}", 403), ("127.0.0.1", 403), (f"127.0.0.1:{served.port + 1}", 403), ([own, "evil.example"], 403), ([], 403)):
        for path in ("/", "/noisy-client/trace.jsonl", "/options"):
            tally.check(f"{path} of the host {host}", served.ask("GET", path, Host=host)[0], want)
        tally.check(f"a run of the host {host}", served.ask("POST", words, content, Host=host, Origin=f"http://{own}", Content_Length=size)[0], want)
    for origin, want in ((f"http://{own}", 200), (f"http://localhost:{served.port}", 200), ("http://evil.example", 403), ("null", 403), (f"https://{own}", 403), (f"http://{own}.evil.example", 403), ([], 403), ([f"http://{own}", "http://evil.example"], 403)):
        status, text, _ = served.ask("POST", words, content, Host=own, Origin=origin, Content_Length=size)
        tally.check(f"a run of the origin {origin}", (status, "crawler" in text), (want, want == 200))
    fields = {"Host": own, "Origin": f"http://{own}"}
    tally.check("a larger file", served.ask("POST", words, **fields, Content_Length=str(LARGEST + 1))[0], 413)
    tally.check("a file of no length", served.ask("POST", words, **fields)[0], 411)
    status, text, _ = served.ask("POST", words, bytes(LARGEST), **fields, Content_Length=str(LARGEST))
    tally.check("the largest file", (status, json.loads(text)["errors"]), (200, "apf: trace fault 2 at line 1: the line has more than 65536 bytes\n"))
    for path in ("/../page", "/page", "/%2e%2e/README.md", "/noisy-client/../../README.md", "/README.md", "//etc/passwd"):
        tally.check(f"no other file: {path}", served.ask("GET", path, Host=own)[0], 404)
    for path in ("/serve", "/replay", "/"):
        tally.check(f"no other command: {path}", served.ask("POST", path, b"", **fields, Content_Length="0")[0], 404)
    _, text, head = served.ask("GET", "/", Host=own)
    policy = dict(it.split(" ", 1) for it in head["Content-Security-Policy"].split("; "))
    tally.check("what the page may load", policy, {"default-src": "'none'", "script-src": "'self'", "style-src": "'self'", "img-src": "'self' blob:", "connect-src": "'self'", "base-uri": "'none'", "form-action": "'none'", "frame-ancestors": "'none'"})
    with open(f"/proc/net/tcp") as table:
        listening = [it.split()[1] for it in table if it.split()[3] == "0A" and it.split()[1].endswith(f":{served.port:04X}")]
    tally.check("it listens on 127.0.0.1 alone", listening, [f"0100007F:{served.port:04X}"])
    tally.check("a run may take 10 s, and a file 64 MiB", json.loads(served.ask("GET", "/options", Host=own)[1]) | {"charge": None}, {"charge": None, "seconds": 10, "bytes": LARGEST})
    page.log()
    begin()
    page.type("#file", AUDIT)
    page.until("return !document.getElementById('audit').hidden")
    page.click("#audit button")
    rests()
    for place in ("#keep", "#flows button[data-flow]", "#queues-list button", "#copy"):
        page.click(place)
        rests()
    write("limit", "3")
    asked = page.run("return [...new Set(performance.getEntriesByType('resource').map(it => new URL(it.name).origin))]")
    tally.check("the page asks its own address alone", asked, [served.address.rstrip("/")])
    words = page.run("return [...new Set(performance.getEntriesByType('resource').map(it => new URL(it.name).pathname))].sort()")
    commands = ["compare", "fates", "hands", "noisy-client/config.json", "noisy-client/trace.jsonl", "options", "page.css", "page.js", "picture", "program.js", "results.js", "settings.js", "simulate", "trace"]
    tally.check("and what it asks for is known", [it for it in words if it != "/icon.svg"], [f"/{it}" for it in commands])
    # of what it may not ask, and of what is not there, the browser would say so
    tally.check("the browser says nothing of it all", page.log(), [])


SLOW = """#!/bin/bash
# notes whether another one runs; takes long at some limits; reads late. It alone has the lock: what it starts may end a little later. The lock's
# number is above those of the configs
exec 200>>"$NOTES.lock"
if flock -n 200; then echo "alone $$" >>"$NOTES"; else echo "beside $$" >>"$NOTES"; fi
for word; do
  if [[ $word = /dev/fd/* ]] && grep -q '"limit": 1[17],' "$word"; then echo "slow $$" >>"$NOTES"; sleep 600 200>&-; fi
done
sleep 0.12 200>&-
"$REAL" "$@" 200>&-
"""


def check_time():
    """With a stand-in for the program that takes long at a limit of 11 or 17, and elsewhere longer than the server looks away."""
    global served
    notes, slow = files("notes", ""), files("slow", SLOW)
    os.chmod(slow, 0o755)
    environment = {"APF_PROGRAM": slow, "REAL": program, "NOTES": notes}
    before = served

    def noted(word):
        return [int(it.split()[1]) for it in open(notes) if it.startswith(word)]

    def still():
        """The slow ones that run, when they have had time to end."""
        end = time.monotonic() + driver.MOST
        while (found := [it for it in noted("slow") if os.path.exists(f"/proc/{it}")]) and time.monotonic() < end:
            time.sleep(0.01)
        return found

    def begin_slow():
        many = len(noted("slow"))
        page.write("#limit", "11")
        end = time.monotonic() + driver.MOST
        while len(noted("slow")) == many and time.monotonic() < end:
            time.sleep(0.01)
        return len(noted("slow")) - many

    # a run that is not ended would take longer than any wait here
    with Served(tally, **environment, APF_LONGEST=str(5 * driver.MOST)) as served:
        begin()
        tally.check("a program that reads late", shown(), table_of_one())
        tally.check("one that takes long", begin_slow(), 1)
        page.write("#limit", "12")
        rests()
        tally.check("the newest change is shown, and soon", (shown(), faults()), (table_of_one(config={**LEVEL, "limit": 12}), []))
        tally.check("the one before is ended", still(), [])
        tally.check("another one that takes long", begin_slow(), 1)
        page.go("about:blank")
        tally.check("it ends with the page that asked", still(), [])
        begin()
        tally.check("one that takes long at the end", begin_slow(), 1)
    tally.check("it ends with the server", still(), [])
    # a machine that is slow runs the others within this much
    with Served(tally, **environment, APF_LONGEST="5") as served:
        begin()
        write("limit", "17")
        tally.check("a run that takes too long", (fault("run"), faults()), ("page: apf simulate was ended, as it took more than 5 s", ["run-fault"]))
        tally.check("that is ended, too", still(), [])
        write("limit", "10")
        tally.check("and it goes on", (shown(), faults()), (table_of_one(), []))
        # as three pages ask at once
        words, content = f"/simulate?{urlencode({'config': json.dumps(LEVEL), 'patience': '8s'})}", open(TRACE, "rb").read()
        own = f"127.0.0.1:{served.port}"
        with concurrent.futures.ThreadPoolExecutor(3) as pages:
            asked = [pages.submit(served.ask, "POST", words, content, Host=own, Origin=f"http://{own}", Content_Length=str(len(content))) for _ in range(3)]
        tally.check("each of three pages has its answer", [(it.result()[0], json.loads(it.result()[1])["status"]) for it in asked], [(200, 0)] * 3)
    tally.check("one runs at a time", (noted("beside"), len(noted("alone")) > 10), ([], True))
    served = before


CHARGING = """#!/bin/bash
# a program that has --charge
words=()
for word; do
  if [[ $word = --charge=* ]]; then echo "$1 $word" >>"$NOTES"; else words+=("$word"); fi
done
[ "$2" != --help ] || echo "--charge <BY>"
exec "$REAL" "${words[@]}"
"""


def check_charge():
    """Who is charged by what is asked where the program knows it."""
    global served
    notes, charging = files("notes", ""), files("charging", CHARGING)
    os.chmod(charging, 0o755)
    before = served

    def noted():
        with open(notes, "r+") as file:
            lines = sorted({it.rstrip("\n") for it in file})
            file.truncate(0)
        return lines

    begin()
    is_shown = page.run("return document.getElementById('charging').checkVisibility()")
    tally.check("a charge where the program knows it", is_shown, b"--charge" in run(program, ["simulate", "--help"])[1])
    with Served(tally, APF_PROGRAM=charging, REAL=program, NOTES=notes) as served:
        begin()
        tally.check("by time at first", noted(), ["fates --charge=time", "picture --charge=time", "simulate --charge=time"])
        page.click("input[value=seats]")
        rests()
        tally.check("by seats", (noted(), page.text("#status").split(":")[0]), (["fates --charge=seats", "picture --charge=seats", "simulate --charge=seats"], "Charged by time → seats"))
        page.click("#keep")
        rests()
        tally.check("two levels by seats", (noted(), "The patience and the charge of now hold for both." in page.text("#kept")), (["compare --charge=seats", "fates --charge=seats", "picture --charge=seats"], True))
    served = before


def check_launcher():
    """What ./page runs where nothing else is named is ./apf."""
    global served
    before = served
    with Served(tally) as served:
        begin()
        tally.check("the noisy client, by ./apf", (shown(), faults()), (table_of_one(), []))
    for name, act in (("the noisy client again", lambda: page.click("#example")), ("a setting", lambda: write("limit", "11"))):
        page.run("document.getElementById('run-fault').hidden = true")
        act()
        rests()
        tally.check(f"{name} where the server has ended", (fault("run"), is_old()), ("The page has no answer: is ./page still running?", True))
    served = before


def check_readme():
    """The page is the second thing of README, after the picture."""
    with open(os.path.join(TOP, "README.md"), encoding="utf-8") as readme:
        begins = readme.read().partition("\n## ")[0]
    found = re.findall(r"^!\[[^]]*\]\((\S+)\)$|^```(?:sh|console)\n(?:\$ )?(.*)", begins, re.M)
    tally.check("README shows the page after the picture", found[:2], [("examples/noisy-client/picture.svg", ""), ("", "./page")])


def listing():
    """Each file of the repository, without what builds and git write."""
    found = {}
    for folder, inside, names in os.walk(TOP):
        inside[:] = [it for it in inside if it not in (".git", "out", "__pycache__")]
        found.update({os.path.join(folder, it): os.stat(os.path.join(folder, it)).st_mtime_ns for it in names})
    return found


before = listing()
# the launcher beside it takes as long as the program
with Served(tally, APF_PROGRAM=program) as served, driver.Browser() as page:
    for check in (check_begin, check_files, check_audit, check_settings, check_faults, check_two, check_details, check_keyboard, check_hostile, check_sizes, check_hosts, check_time, check_charge, check_launcher, check_readme):
        if len(sys.argv) > 1 and check.__name__.removeprefix("check_") not in sys.argv[1:]:
            continue
        begun = time.monotonic()
        check()
        if os.environ.get("APF_TIMES"):
            print(f"{check.__name__}: {time.monotonic() - begun:.1f} s")
tally.check("no file is left", os.listdir(served.room.folder.name), [])
tally.check("no file of the repository changes", {it for it, _ in set(listing().items()) ^ set(before.items())}, set())
tally.end()
