#!/usr/bin/python3
"""Opens the page of tools/timeline.py in a headless browser, as wide as a phone and as a desk, and looks at it.

    checks/timeline_page.py [--keep FOLDER]

The table of decisions is made here: a day with two tiers, bursts, controls, and targets with escapes. The page must
load nothing besides itself; nothing may stick out of the window; every label must be high enough to read, lie within
its picture and apart from the others; the lines of a picture must differ without colour; targets must stand as they
were sent. --keep leaves the pictures of the screen, to be looked at. Exits with 1 where something is wrong. It needs
Debian's chromium, chromium-driver and python3-selenium, and says so where one isn't there.
"""
import pathlib
import shutil
import subprocess
import sys
import tempfile

try:
    from selenium import webdriver
    from selenium.webdriver.chrome.service import Service
except ImportError:
    sys.exit("needs selenium: apt-get install chromium chromium-driver python3-selenium")

from lib.report import Report
from lib.sources import TOP
from lib.usage import parser_of

HEADING = "number,connection,tick,tier,status,decision,service,credit,rate,start,finish,waited,method,target\n"
SECOND = 1_000_000
DAY = 86_400
SIZES = {"phone": (390, 844), "desk": (1280, 900)}
LEAST_HEIGHT = 8.5  # pixels of the screen that a label is high
SLACK = 2  # pixels
# In the table a percent sign is an escape, so that /caf%C3%A9 stands as /caf%25C3%25A9.
TARGETS = {"/caf%25C3%25A9?q=%22a%2Cb%22": '/caf%C3%A9?q="a,b" (/café?q="a,b")', "/a%2520b": "/a%20b (/a b)",
           "/%3Cscript%3Ealert(1)%3C/script%3E": "<script>alert(1)</script>".join(("/", ""))}

LOOK = """
const rect = of => { const r = of.getBoundingClientRect(); return [r.left, r.top, r.right, r.bottom]; };
const pictures = [...document.querySelectorAll('svg')].map(svg => ({
  title: svg.previousElementSibling ? svg.previousElementSibling.textContent : '', place: rect(svg),
  labels: [...svg.querySelectorAll('text')].map(text => [text.textContent, ...rect(text)]),
  lines: [...svg.querySelectorAll('g[id^=line2d] > path')].filter(path => !path.closest('defs')
      && path.getAttribute('clip-path') === null && path.parentElement.parentElement.id.startsWith('axes'))
      .map(path => [path.getAttribute('style').includes('dasharray') ?
        path.getAttribute('style').match(/stroke-dasharray: ([^;]*)/)[1] : 'whole',
        (path.parentElement.querySelector('use') || {getAttribute: () => ''}).getAttribute('xlink:href')].join(' '))}));
return {loaded: performance.getEntriesByType('resource').length, width: document.documentElement.scrollWidth,
        window: window.innerWidth, pictures: pictures, alerts: document.querySelectorAll('script').length,
        cells: [...document.querySelectorAll('td')].map(cell => cell.textContent)};
"""


def row(number, tick, tier, decision, rate, wait, target):
    """A row of the table of a request that costs five milliseconds."""
    begin = "%d,%d,%d,%d," % (number, number % 50, tick, tier)
    if decision == "admitted":
        return begin + "200,admitted,5000,2000000000,%d,%d,%d,%d,GET,%s\n" % (
            rate, tick + wait, tick + wait + 5000, wait, target)
    return begin + "503,rejected,5000,0,%d,,,%d,GET,%s\n" % (rate, wait, target)


def rows():
    """A request each ten seconds of a day, and a burst each hour whose later half is turned away."""
    number, targets = 0, list(TARGETS)
    for second in range(0, DAY, 10):
        rate = 1_000_000 - 5_000 * (second // 3_600 % 7)
        yield row(number, second * SECOND, 0, "admitted", rate, 0, "/")
        number += 1
        for place in range(60 if second % 3_600 == 1_800 else 0):
            decision = "admitted" if place < 30 else "rejected"
            yield row(number, second * SECOND + place, 1, decision, 500_000, 5_000 * min(place + 1, 31),
                      targets[place % len(targets)])
            number += 1


def page_in(folder):
    """The page of a table that is written in a folder."""
    table, capture, settings, page = (folder / name for name in ("day.csv", "day.capture", "site.toml", "day.html"))
    table.write_text(HEADING + "".join(rows()))
    capture.write_text("haboob-capture 2 784111777\nstop 0\n")
    settings.write_text("[policy]\ntarget = 120000\n[tier1]\ntarget = 60000\n")
    tool = pathlib.Path(TOP, "tools", "timeline.py")
    subprocess.run(["/usr/bin/python3", tool, "--capture", capture, "--settings", settings, "--output", page, table],
                   check=True)
    return page


def browser(size):
    """A headless browser with a window of this size, and without network."""
    options = webdriver.ChromeOptions()
    options.binary_location = shutil.which("chromium")
    for word in ("--headless=new", "--no-sandbox", "--disable-gpu", "--hide-scrollbars",
                 "--force-device-scale-factor=1", "--host-resolver-rules=MAP * ~NOTFOUND",
                 "--window-size=%d,%d" % size):
        options.add_argument(word)
    return webdriver.Chrome(service=Service(shutil.which("chromedriver")), options=options)


def overlap(one, other):
    """Whether two labels lie on one another."""
    return (min(one[3], other[3]) - max(one[1], other[1]) > SLACK
            and min(one[4], other[4]) - max(one[2], other[2]) > SLACK)


def faults_of_picture(picture):
    """What is wrong with a picture."""
    left, top, right, bottom = picture["place"]
    labels = [label for label in picture["labels"] if label[0].strip()]
    for label in labels:
        sides = label[4] - label[2], label[3] - label[1]
        if min(sides) < LEAST_HEIGHT and len(label[0]) > 1:
            yield "the label %r is %.1f pixels high" % (label[0], min(sides))
        if label[1] < left - SLACK or label[3] > right + SLACK or label[2] < top - SLACK or label[4] > bottom + SLACK:
            yield "the label %r sticks out" % label[0]
    for place, one in enumerate(labels):
        yield from ("the labels %r and %r lie on one another" % (one[0], other[0])
                    for other in labels[:place] if overlap(one, other))
    if len(set(picture["lines"])) < len(picture["lines"]):
        yield "lines differ by colour alone: %s" % picture["lines"]


def faults_of_page(found):
    """What is wrong with a page."""
    if found["loaded"]:
        yield "%d other files were loaded" % found["loaded"]
    if found["alerts"]:
        yield "a target became a script"
    if found["width"] > found["window"]:
        yield "the page is %d pixels wide, the window %d" % (found["width"], found["window"])
    if len(found["pictures"]) != 8:
        yield "%d pictures, not 8" % len(found["pictures"])
    yield from ("no target %r" % shown for shown in TARGETS.values() if shown not in found["cells"])
    for picture in found["pictures"]:
        yield from ("%s: %s" % (picture["title"], fault) for fault in faults_of_picture(picture))


def look(report, page, name, keep):
    """Looks at a page in a window."""
    driver = browser(SIZES[name])
    try:
        driver.execute_cdp_cmd("Emulation.setDeviceMetricsOverride", {
            "width": SIZES[name][0], "height": SIZES[name][1], "deviceScaleFactor": 1, "mobile": name == "phone"})
        driver.get(page.as_uri())
        found = driver.execute_script(LOOK)
        if keep:
            height = driver.execute_script("return document.documentElement.scrollHeight")
            driver.execute_cdp_cmd("Emulation.setDeviceMetricsOverride", {
                "width": SIZES[name][0], "height": height, "deviceScaleFactor": 1, "mobile": name == "phone"})
            driver.save_screenshot(str(pathlib.Path(keep, "timeline_%s.png" % name)))
    finally:
        driver.quit()
    faults = list(faults_of_page(found))
    for fault in faults:
        report.tell_wrong("%s: WRONG: %s" % (name, fault))
    print("%s: %d pictures, %d labels, %d wrong" % (
        name, len(found["pictures"]), sum(len(picture["labels"]) for picture in found["pictures"]), len(faults)))


def main():
    parser, report = parser_of(__doc__, runs_program=False), Report()
    parser.add_argument("--keep", metavar="FOLDER", help="where pictures of the screen go")
    options = parser.parse_args()
    missing = [name for name in ("chromium", "chromedriver") if not shutil.which(name)]
    if missing:
        sys.exit("needs %s: apt-get install chromium chromium-driver python3-selenium" % " and ".join(missing))
    with tempfile.TemporaryDirectory() as folder:
        page = page_in(pathlib.Path(folder))
        for name in SIZES:
            look(report, page, name, options.keep)
    return int(report.wrong > 0)


if __name__ == "__main__":
    sys.exit(main())
