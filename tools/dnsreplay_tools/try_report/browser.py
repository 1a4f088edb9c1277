"""The page of a report in a real browser: whether anything sticks out of the page, or of its plot, at three widths."""
import html, json, random, re, shutil, subprocess
from ..report import page, plots
from ..wire import Fault, check
from . import drawn, written
from .figures import RESOLVER
from .lab import reported

BROWSER = "chromium"
WIDTHS = 400, 1_000, 1_600
SECONDS = 90
# of each width: how wide the page is, and what sticks out of it or of its plot, but within what scrolls by itself
SCRIPT = """
const told = {};
function sticks_out(each, width) {
  if (each.closest("defs, .wide > *, style, title, desc")) return null;
  const svg = each.closest("svg"), box = each.getBoundingClientRect();
  if (svg && each !== svg && each.tagName !== "text" || !box.width) return null;
  const wide = {left: 0, right: width, top: -1e9, bottom: 1e9};
  const bound = svg && each !== svg ? svg.getBoundingClientRect() : wide;
  const is_in = box.right <= bound.right + 1 && box.left >= bound.left - 1
    && box.top >= bound.top - 1 && box.bottom <= bound.bottom + 1;
  return is_in ? null : each.tagName + ": " + each.textContent.slice(0, 40);
}
function lie_over(one, other) {
  const a = one.getBoundingClientRect(), b = other.getBoundingClientRect();
  return Math.min(a.right, b.right) - Math.max(a.left, b.left) > 2
    && Math.min(a.bottom, b.bottom) - Math.max(a.top, b.top) > 3;
}
function look() {
  for (const frame of document.querySelectorAll("iframe")) {
    const inner = frame.contentDocument, width = inner.documentElement.clientWidth;
    for (const each of inner.querySelectorAll("details")) each.open = true;
    const out = [...inner.querySelectorAll("body *")].map(each => sticks_out(each, width)).filter(each => each);
    const plots = [...inner.querySelectorAll("svg")];
    for (const plot of plots) {
      const texts = [...plot.querySelectorAll("text")];
      for (const [at, one] of texts.entries()) for (const other of texts.slice(at + 1))
        if (lie_over(one, other)) out.push("over each other: " + one.textContent + " and " + other.textContent);
    }
    told[frame.width] = {scroll: inner.documentElement.scrollWidth, width, out, plots: plots.length};
  }
  document.body.innerHTML = "<pre>" + JSON.stringify(told) + "</pre>";
}
window.addEventListener("load", () => setTimeout(look, 200));
"""
OUTSIDE = re.compile(r"(?:src|href)\s*=\s*[\"'](?!#)|url\((?!#)|@import|<script|<link|<iframe", re.I)

def browser():
    if not shutil.which(BROWSER): raise Fault(f"{BROWSER} is missing: apt-get install chromium")

def looked_at(lab, text, is_dark):
    """What the browser tells of a page at each width."""
    browser()
    frames = "".join(f'<iframe width="{width}" height="800" srcdoc="{html.escape(text)}"></iframe>' for width in WIDTHS)
    path = lab.folder / "looked_at.html"
    path.write_text(f"<!DOCTYPE html><body>{frames}<script>{SCRIPT}</script></body>", encoding="utf-8")
    command = [BROWSER, "--headless", "--no-sandbox", "--disable-gpu", "--virtual-time-budget=5000", "--dump-dom"]
    command.append(f"--user-data-dir={lab.folder / 'browser'}")
    command.append(f"--blink-settings=preferredColorScheme={int(not is_dark)}")
    done = subprocess.run([*command, path.as_uri()], capture_output=True, text=True, check=False, timeout=SECONDS)
    found = re.search(r"<pre>(\{.*?\})</pre>", done.stdout, re.S)
    check(found, f"{BROWSER} told nothing: {done.stderr[-500:]}")
    return json.loads(html.unescape(found[1]))

def pages(lab):
    """Pages of a capture of many kinds, of one query, and of names as long as they may be."""
    for name, count, long in (("many queries", 600, False), ("one query", 1, False), ("long names", 40, True)):
        rng = random.Random(f"{lab.args.seed} page {name}")
        file = written.File()
        some = [drawn.lengthened(each) if long else each for each in drawn.exchanges(rng, count)]
        drawn.write(rng, file, some or list(drawn.exchanges(random.Random(1), 5)))
        path = lab.folder / "page"
        path.write_bytes(file.pcap())
        yield name, page.page(reported(lab, [path], RESOLVER), 10)

def run(lab, tally):
    for name, text in pages(lab):
        with tally.check(f"the page of {name} has nothing from elsewhere, and no script"):
            check(not OUTSIDE.search(text), OUTSIDE.search(text))
        with tally.check(f"the page of {name} fits at {', '.join(map(str, WIDTHS))} pixels") as tell:
            told = looked_at(lab, text, is_dark=len(name) % 2)
            for width, each in told.items():
                is_fitting = each["scroll"] <= each["width"] and not each["out"]
                check(is_fitting, f"at {width}: {each['scroll']} wide, {each['out'][:4]}")
                check(each["plots"] >= 3, f"{each['plots']} plots")
            tell(f"{each['plots']} plots")
    with tally.check("its colours stand out from the paper, light and dark (WCAG 2.1, 1.4.3 and 1.4.11)"):
        for at, colours in enumerate((plots.LIGHT, plots.DARK)):
            ink, paper = (plots.INKS[each][at] for each in ("ink", "paper"))
            low = [colour for colour in colours if contrast(colour, paper) < 3]
            check(not low and contrast(ink, paper) >= 7, f"too near to the paper: {low}")

def luminance(colour):
    parts = [int(colour[at : at + 2], 16) / 255 for at in (1, 3, 5)]
    red, green, blue = (part / 12.92 if part <= 0.03928 else ((part + 0.055) / 1.055) ** 2.4 for part in parts)
    return 0.2126 * red + 0.7152 * green + 0.0722 * blue

def contrast(one, other):
    low, high = sorted((luminance(one), luminance(other)))
    return (high + 0.05) / (low + 0.05)
