"""The look of the page and the script in it: everything that it needs is here."""

from .drawing import LEFT, RIGHT, WIDTH

STYLE = """
:root{color-scheme:light dark;--ink:#111;--soft:#4a4a4a;--paper:#fff;--grid:#e4e4e4;--edge:#767676;--rule:#bbb;--head:#f2f2f2;--own:#333;--wait:#8f8f8f;--line:#0072b2;--alarm:#b84300;--error:#8b0000;--found:#fff3bf;--link:#0b57a4}
@media (prefers-color-scheme:dark){:root{--ink:#e8e8e8;--soft:#b9b9b9;--paper:#14181c;--grid:#2c3238;--edge:#8a939b;--rule:#4a525a;--head:#222a31;--own:#d9d9d9;--wait:#8a939b;--line:#56b4e9;--alarm:#ff8a4d;--error:#ff6b6b;--found:#4a3f00;--link:#8cc8ff}}
@media print{:root{color-scheme:light;--ink:#111;--soft:#4a4a4a;--paper:#fff;--grid:#e4e4e4;--edge:#767676;--rule:#bbb;--head:#f2f2f2;--own:#333;--wait:#8f8f8f;--line:#0072b2;--alarm:#b84300;--error:#8b0000;--found:#fff3bf;--link:#111}}
body{font:15px/1.5 system-ui,'DejaVu Sans',sans-serif;max-width:1040px;margin:1.5em auto;padding:0 1em;color:var(--ink);background:var(--paper)}
h1{font-size:1.5em;margin-bottom:.2em;overflow-wrap:anywhere}h2{font-size:1.2em;border-bottom:1px solid var(--rule);margin-top:1.8em}h3{font-size:1em;margin-bottom:.3em}
a{color:var(--link)}nav a{margin-right:1.2em;display:inline-block;padding:.15em 0}:focus-visible{outline:3px solid var(--link);outline-offset:2px}
.wide{overflow-x:auto}svg{display:block;width:100%;height:auto;font:12px system-ui,'DejaVu Sans',sans-serif}text{fill:var(--ink)}.strong{font-weight:600}text.small{font-size:11px;fill:var(--soft)}text.alarm{fill:var(--alarm)}
.grid{stroke:var(--grid)}.axis{stroke:var(--edge)}.frame{fill:none;stroke:var(--edge)}.bar{stroke:var(--ink);stroke-width:.5}text.inside{font-size:11px}text.light{fill:#fff}text.dark{fill:#111}text.own{fill:var(--paper)}
.mark{stroke:var(--ink);stroke-width:1.3;fill:var(--ink)}.mark .hollow{fill:var(--paper)}.curve{fill:none;stroke:var(--line);stroke-width:1.6;stroke-linecap:round;stroke-linejoin:round}.ring{fill:none;stroke:var(--alarm);stroke-width:2}
.silent{fill:none;stroke:var(--alarm);stroke-width:1.2;stroke-dasharray:4 2}.cursor{stroke:var(--alarm);pointer-events:none}.key{margin-right:1.2em;white-space:nowrap}.key svg{display:inline;width:14px;height:14px;vertical-align:-2px}
table{border-collapse:collapse;margin:.8em 0;font-size:.9em}td,th{border:1px solid var(--rule);padding:.2em .5em;text-align:left;vertical-align:top;overflow-wrap:break-word}
th{background:var(--head);white-space:nowrap}.counts td:last-child,.devices td:last-child{text-align:right}.rules td:nth-child(4){min-width:7em}.rules td:nth-child(5),.rules td:nth-child(6){min-width:12em}code{font-size:.9em;overflow-wrap:anywhere}td code{white-space:nowrap}.speakers td:nth-child(n+8),.messages td:nth-child(n+5){white-space:nowrap}.speakers{font-size:.85em}.rules{font-size:.85em}.rules td:nth-child(2){min-width:6em}.lines{overflow-wrap:anywhere;padding-left:5em}
.never,b{color:var(--alarm);font-weight:600}summary{cursor:pointer;padding:.3em 0}:target{background:var(--found)}#moment{position:fixed;top:0;right:0;background:var(--ink);color:var(--paper);padding:.1em .6em}#moment:empty{display:none}
@media (max-width:900px){.wide>svg{min-width:900px}}
@media print{*{print-color-adjust:exact;-webkit-print-color-adjust:exact}body{margin:0;max-width:none;font-size:11px}nav,#moment,.cursor,summary{display:none}details::details-content{content-visibility:visible;height:auto}.wide{overflow:visible}.wide>svg{min-width:0}svg,tr,h2,h3{break-inside:avoid}h2,h3{break-after:avoid}}
"""
# a line through all drawings at the moment that is pointed to, or gone to by the arrow keys; what is folded is opened to be printed
SCRIPT = f"""
const told = document.getElementById('moment'), times = document.body.dataset, left = {LEFT}, right = {RIGHT};
let at = left;
function go(x) {{
  if (x < left || x > right) return;
  at = x;
  for (const line of document.querySelectorAll('.cursor')) for (const end of ['x1', 'x2']) line.setAttribute(end, x);
  const seconds = (x - left) / (right - left) * Number(times.seconds);
  const moment = new Date(Number(times.begin) + 1000 * seconds).toISOString().replace('T', ' ').slice(times.days === '1' ? 0 : 11, 23);
  told.textContent = moment + ', ' + seconds.toFixed(3) + ' s after the start';
}}
for (const drawing of document.querySelectorAll('svg.time')) {{
  drawing.addEventListener('pointermove', event => {{
    const box = drawing.getBoundingClientRect();
    go((event.clientX - box.left) / box.width * {WIDTH});
  }});
  drawing.parentElement.addEventListener('keydown', event => {{
    const step = {{ArrowLeft: -1, ArrowRight: 1}}[event.key];
    if (step && drawing.parentElement.scrollWidth <= drawing.parentElement.clientWidth) go(at + step * (right - left) / 200);
  }});
}}
addEventListener('beforeprint', () => {{ for (const folded of document.querySelectorAll('details')) folded.open = true; }});
"""
