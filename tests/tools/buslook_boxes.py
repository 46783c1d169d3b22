"""Opens a page in a headless browser, where one is there, and tells what is wrong with what it shows: texts that overlap, leave their box, or can't
be read on what is behind them; a page that is wider than its window; and tables that a printer wouldn't get."""

import json
import os
import re
import shutil
import subprocess
import tempfile

BROWSERS = ("chromium", "chromium-browser", "google-chrome")
LIMIT_SECONDS = 180
# of the settings of the browser: which one of its colour schemes a page is told
SCHEMES = {"dark": 0, "light": 1}
# texts of drawings are at least so high on the screen, and a contrast is at least that of WCAG AA
LEAST_HEIGHT, LEAST_CONTRAST = 9, 4.5
# where in a drawing the middle of its time is, of its width
MIDDLE = 0.5875

SCRIPT = """
const wrong = [], seen = new Set();
function tell(what, element) {
  const words = what + ': ' + element.textContent.slice(0, 60);
  if (!seen.has(words) && wrong.length < 40) wrong.push(words);
  seen.add(words);
}
function channels(colour) { const found = colour.match(/[\\d.]+/g).map(Number); return found.length > 3 && found[3] === 0 ? null : found; }
function luminance(colour) {
  const [r, g, b] = colour.slice(0, 3).map(c => { c /= 255; return c <= .04045 ? c / 12.92 : ((c + .055) / 1.055) ** 2.4; });
  return .2126 * r + .7152 * g + .0722 * b;
}
function contrast(first, second) { const [a, b] = [luminance(first), luminance(second)].sort((x, y) => y - x); return (a + .05) / (b + .05); }
function behind(element) {
  for (; element; element = element.parentElement) { const colour = channels(getComputedStyle(element).backgroundColor); if (colour) return colour; }
  return [255, 255, 255];
}
function rectBehind(text) {
  for (let one = text.previousElementSibling; one; one = one.previousElementSibling) if (one.matches('rect.bar')) return one;
  return null;
}
for (const folded of document.querySelectorAll('details')) folded.open = true;
for (const svg of document.querySelectorAll('svg')) {
  const outer = svg.getBoundingClientRect(), texts = [...svg.querySelectorAll('text')].map(text => [text, text.getBoundingClientRect()]);
  for (const [text, box] of texts) {
    if (box.left < outer.left - 1 || box.right > outer.right + 1 || box.top < outer.top - 2 || box.bottom > outer.bottom + 2) tell('leaves its drawing', text);
    if (box.height < LEAST_HEIGHT) tell('is ' + box.height.toFixed(1) + ' pixels high', text);
    const bar = text.classList.contains('inside') ? rectBehind(text) : null, inside = bar && bar.getBoundingClientRect();
    if (bar && box.right > inside.right + 1) tell('leaves its bar', text);
    const colour = channels(getComputedStyle(bar || text).fill) || [221, 221, 221];
    const ratio = bar ? contrast(channels(getComputedStyle(text).fill), colour) : contrast(colour, behind(svg));
    if (ratio < LEAST_CONTRAST) tell('has a contrast of ' + ratio.toFixed(2), text);
  }
  for (let i = 0; i < texts.length; i++) for (let j = i + 1; j < texts.length; j++) {
    const [a, b] = [texts[i][1], texts[j][1]];
    const across = Math.min(a.right, b.right) - Math.max(a.left, b.left), down = Math.min(a.bottom, b.bottom) - Math.max(a.top, b.top);
    if (across > 1 && down > 3) tell('overlaps ' + texts[j][0].textContent.slice(0, 30), texts[i][0]);
  }
}
for (const element of document.querySelectorAll('h1,h2,h3,p,li,td,th,a,summary,code,b,span')) {
  const ratio = contrast(channels(getComputedStyle(element).color), behind(element));
  if (ratio < LEAST_CONTRAST) tell('has a contrast of ' + ratio.toFixed(2), element);
  if (element.scrollWidth > element.clientWidth + 1 && getComputedStyle(element).display !== 'inline') tell('leaves its box', element);
}
if (document.documentElement.scrollWidth > innerWidth) tell('the page is ' + document.documentElement.scrollWidth + ' pixels wide', document.body);
for (const folded of document.querySelectorAll('details')) folded.open = false;
dispatchEvent(new Event('beforeprint'));
for (const folded of document.querySelectorAll('details')) if (!folded.open) tell('is not printed', folded);
for (const one of document.querySelectorAll('svg[role=img]')) if (!one.getAttribute('aria-label')) tell('has no label', one);
// the middle of a drawing's time is pointed to
const drawing = document.querySelector('svg.time'), place = drawing ? drawing.getBoundingClientRect() : null;
if (drawing) drawing.dispatchEvent(new PointerEvent('pointermove', {clientX: place.left + place.width * MIDDLE}));
const moment = drawing ? document.getElementById('moment').textContent : '';
const dark = matchMedia('(prefers-color-scheme: dark)').matches, texts = document.querySelectorAll('svg text').length;
parent.postMessage(JSON.stringify({wrong, width: innerWidth, dark, texts, moment}), '*');
"""
# a window is never narrower than 500 pixels, and a frame in it may be
FRAME = """<!DOCTYPE html><meta name="color-scheme" content="light dark"><script>
addEventListener('message', message => {
  const report = document.createElement('script');
  report.type = 'application/json';
  report.id = 'boxes';
  report.textContent = message.data;
  document.body.append(report);
});
</script><body><iframe src="page.html" style="width:WIDTHpx;height:1200px;border:0"></iframe></body>"""
SCRIPT = SCRIPT.replace("LEAST_HEIGHT", str(LEAST_HEIGHT)).replace("LEAST_CONTRAST", str(LEAST_CONTRAST)).replace("MIDDLE", str(MIDDLE))


def browser():
    """The browser's command, or nothing where none is there."""
    return next((path for path in map(shutil.which, BROWSERS) if path), None)


def run(folder, words, page):
    """What the browser writes of a page, with a folder for what it keeps."""
    command = [browser(), "--headless", "--no-sandbox", "--disable-gpu", "--hide-scrollbars", f"--user-data-dir={folder}/profile", *words, f"file://{page}"]
    return subprocess.run(command, stdin=subprocess.DEVNULL, stdout=subprocess.PIPE, stderr=subprocess.DEVNULL, timeout=LIMIT_SECONDS, check=False).stdout


def looked_at(content, width, scheme):
    """What a page, bytes, shows at a width in pixels and in a colour scheme: what is wrong, and whether it was shown so at all."""
    with tempfile.TemporaryDirectory() as folder:
        with open(os.path.join(folder, "page.html"), "wb") as file:
            file.write(content.replace(b"</body>", b"<script>" + SCRIPT.encode() + b"</script></body>"))
        frame = os.path.join(folder, "frame.html")
        with open(frame, "w", encoding="ascii") as file:
            file.write(FRAME.replace("WIDTH", str(width)))
        words = [f"--window-size={width + 100},1300", f"--blink-settings=preferredColorScheme={SCHEMES[scheme]}", "--virtual-time-budget=5000", "--dump-dom"]
        shown = run(folder, words, frame).decode()
    found = re.search(r'<script type="application/json" id="boxes">(.*?)</script>', shown, re.DOTALL)
    return None if found is None else json.loads(found.group(1))


def printed(content):
    """The pages that a printer gets, as a document of PDF."""
    with tempfile.TemporaryDirectory() as folder:
        page, pdf = os.path.join(folder, "page.html"), os.path.join(folder, "page.pdf")
        with open(page, "wb") as file:
            file.write(content)
        run(folder, [f"--print-to-pdf={pdf}"], page)
        with open(pdf, "rb") as file:
            return file.read()
