"""Opens pages of examples/page.py in a browser, uses them, and compares what they say with montre's text:
page_seen.py BROWSER [FOLDER], by page.sh."""
import os
import re
import subprocess
import sys
import tempfile
import time

from browser import Browser

EXAMPLES = os.path.join(os.path.dirname(os.path.abspath(__file__)), "..", "..", "examples")
SIZES = [(1600, 900), (1024, 700), (390, 800)]
HOSTILE = r"""let odd = tb.\<img/src=x/onerror=document.title=1>&"'</script>
never odd_high = odd
each odd_moves = rise(odd) |-> rise(odd)
"""
DUMP = r"""$timescale 1ns $end
$scope module tb $end
$var wire 1 ! \<img/src=x/onerror=document.title=1>&"'</script> $end
$upscope $end
$enddefinitions $end
#0
0!
#5
1!
#9
0!
#20
"""

# A trace of examples/, options, and checks: some that fail, some that are open, some that pass.
CASES = [
    ("link.vcd", [], open(os.path.join(EXAMPLES, "link_ci.checks")).read()),
    ("link.vcd", ["--unit", "us", "--scale", "4"],
     "never long = <:tb.irq:> % [0.0035,inf)\neach late = rise(tb.req) |-> (!tb.ack ; rise(tb.ack)) % [0,0.03]\n"),
    ("stream.vcd", ["--unit", "ns"], "never push_full = {tb.push && tb.full} % [5,inf)\n"
                       "each answered = rise(tb.req) |-> (!tb.ack ; rise(tb.ack)) % [0,30]\nword = <:tb.valid:>\n"),
    ("jobs.vcd", [], "each done = event(tb.start) |-> (true ; event(tb.done)) % [0,9]\nnever retry = event(tb.retry)\n"),
    ("serial.vcd", ["--margin", "40"], "never cs = <:tb.cs:>\nsome both = {tb.cs && !tb.cs}\n"),
    ("uart.vcd", ["--most", "2"], "never low = <:!tb.tx:>\n"),
    ("arbiter.vcd", [], "never both = {tb.grant_a && tb.grant_b}\neach given = rise(tb.grant_b) |-> true ; fall(tb.grant_b)\n"),
    ("levels.vcd", ["--scale", "2"], "never late = event(tb.sync) ; true ; event(tb.sync)\nnever glitch = <:tb.glitch:> % [0,0.5]\n"),
    ("queue.vcd", [], "let full = tb.level == 8\nlet moved = tb.data changes\neach drained = <:full:> => true % [0,4]\n"
                      "each moves = event(moved) |-> (true ; event(moved)) % [0,20]\n"),
    ("oneline.vcd", ["--all"], "never scl = libsigrok.scl\neach sda = rise(libsigrok.sda) => libsigrok.sda\n"),
    ("clash.vcd", [], "never one = tb.a_1\n"),
    ("dollar.vcd", [], "each req = rise(tb.req) |-> fall(tb.req)\nsome asked = rise(tb.req)\n"),
    ("bus.trace", ["--format", "text"], "never idle = {req && !busy}\neach end = rise(ack) |-> !req ; rise(req)\nsome no = ack % [9,inf)\n"),
    ("temperature.csv", ["--format", "csv"], "let hot = temp >= 80\nlet on = fan == 1\n"
                                             "each cooled = rise(hot) |-> (!on ; rise(on)) % [0,40]\n"),
]


def answer(program, trace, options, checks):
    """The verdicts of montre with their zones, by its text."""
    given = [] if "--format" in options else ["--format", "vcd"]
    for name in ("--format", "--unit", "--scale"):
        given += options[options.index(name):][:2] if name in options else []
    run = subprocess.run([program, "--check", *given, "--input", trace, checks], capture_output=True, text=True)
    found = {}
    for line in run.stdout.splitlines()[:-1]:
        first, _, rest = line.partition(" ")
        if "," in rest:
            found.setdefault(first, ["matches", []])[1].append(rest)
        else:
            found[rest] = [first, []]
    return found, run.returncode


class Seen:
    """What a page says and does, beside what it should."""

    def __init__(self, browser, name):
        self.browser, self.name, self.wrong, self.looks = browser, name, 0, 0

    def same(self, what, got, wanted):
        self.looks += 1
        if got != wanted:
            self.wrong += 1
            print("%s: %s: %r, not %r" % (self.name, what, got, wanted))

    def text(self, chosen):
        return self.browser.ask("document.querySelector(%r).textContent" % chosen)

    def list(self, found):
        rows = self.browser.ask("[...document.querySelectorAll('#checks button')].map(button => "
                                "[...button.children].map(span => span.textContent))")
        wanted = {}
        for name, (verdict, zones) in found.items():
            count = "%d zone%s" % (len(zones), "s" * (len(zones) != 1)) if zones else ""
            wanted[name] = [verdict, name, count]
        self.same("the list", {row[1]: row for row in rows if row[0] != "matches" or row[2]}, wanted)
        return [row[1] for row in rows]

    def walk(self, names, found, shows_all, most):
        """A click on each check, and on it again, until its first zone is back."""
        for place, name in enumerate(names):
            verdict, zones = found.get(name, ("matches", []))
            kept = zones[:most] if shows_all or verdict in ("fail", "open") else []
            self.browser.ask("chosen = null")
            for zone in [*kept, *kept[:1]] or [""]:
                self.browser.ask("part('checks').children[%d].firstChild.click()" % place)
                self.same(name, self.text("#zone"), zone)
                if zone:
                    self.shows(zone)
                elif self.browser.ask("data.windows.length"):
                    self.same("the whole range of " + name, self.browser.ask("view.from <= 0 && view.to >= data.end"), True)

    def shows(self, zone):
        """The zone is in view, and its waves are in the page, or it says that they go on."""
        numbers = re.findall(r"[0-9.]+", zone)
        units = self.browser.ask("10 ** data.scale")
        start, end = round(float(numbers[0]) * units), round(float(numbers[3]) * units)
        self.same("view of " + zone, self.browser.ask("view.from <= %d && view.to >= %d" % (start, end)), True)
        self.same("window of " + zone, self.browser.ask(
            "data.windows.some(one => one.start <= %d && (one.end >= %d || one.goesOn))" % (start, end)), True)

    def cursors(self, width, height):
        """Two clicks on the waves, and the difference between them; a zoom and a drag move the view."""
        low, high = width * 0.6, width * 0.9
        if width < 500 or not self.browser.ask("data.windows.length"):
            return
        self.browser.click(low, height - 60)
        self.browser.click(high, height - 60, 8)
        times = [float(time) for time in re.findall(r"[AB−] ([0-9.]+) ", self.text("#cursors"))]
        self.same("cursors", len(times) == 3 and abs(times[1] - times[0] - times[2]) < 1e-6, True)
        before = self.browser.ask("[view.from, view.to]")
        self.browser.wheel(low, height - 60, -200)
        self.same("zoom", self.browser.ask("view.to - view.from") < before[1] - before[0], True)
        self.browser.drag(high, low, height - 60)
        self.same("drag", self.browser.ask("view.from") > before[0], True)
        self.browser.ask("part('whole').click()")
        self.same("whole", self.browser.ask("view.from <= 0 && view.to >= data.end"), True)


def look(browser, program, room, case, pictures):
    trace, options, checks = case
    name = os.path.basename(trace)
    path, page = os.path.join(room, name + ".checks"), os.path.join(room, name + ".html")
    with open(path, "w") as file:
        file.write(checks)
    found, status = answer(program, trace, options, path)
    with open(page, "wb") as out:
        run = subprocess.run([sys.executable, "page.py", *options, path, trace], cwd=EXAMPLES, stdout=out)
    seen, browser.faults = Seen(browser, name), []
    seen.same("status", run.returncode, status)
    for width, height in SIZES:
        browser.size(width, height)
        browser.open(page)
        names = seen.list(found)
        most = int(options[options.index("--most") + 1]) if "--most" in options else 50
        seen.walk(names, found, "--all" in options, most)
        seen.cursors(width, height)
        if pictures:
            browser.open(page)
            time.sleep(0.1)
            browser.picture(os.path.join(pictures, "%s-%d.png" % (name, width)))
    seen.same("title", browser.ask("document.title"), name)
    seen.same("what ran beside", browser.faults, [])
    return seen.looks, seen.wrong


def main():
    program = os.environ["MONTRE"] = os.path.abspath(os.environ["MONTRE"])
    pictures = sys.argv[2] if len(sys.argv) > 2 else None
    browser, looks, wrong = Browser(sys.argv[1]), 0, 0
    with tempfile.TemporaryDirectory() as room:
        hostile = os.path.join(room, "<b>&\"'.vcd")
        with open(hostile, "w") as file:
            file.write(DUMP)
        cases = [(os.path.join(EXAMPLES, trace), *rest) for trace, *rest in CASES]
        for case in [*cases, (hostile, [], HOSTILE)]:
            more = look(browser, program, room, case, pictures)
            looks, wrong = looks + more[0], wrong + more[1]
    browser.close()
    print("%d pages, %d looks, %d wrong" % (len(CASES) + 1, looks, wrong))
    sys.exit(wrong > 0)


if __name__ == "__main__":
    main()
