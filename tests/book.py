#!/usr/bin/env python3
"""book.py FOLDER: the pages of the book, held to what they should be. Run by tests/book.sh; needs chromium and tidy.

By text: every link leads to a page and a place that are there, none leads outside, no id is there twice; of each wrong version what is shown as
standing there does, with what replaces it behind it; tidy has nothing to say.
In a browser, each page 1400 and 390 pixels wide: nothing is wider than the page and no line is cut off, with every fold open; folding, the filter and the
switch of the order do what they say. And with no script at all: everything is there and open, and the switch works.
"""
import html.parser, os, pathlib, re, shutil, subprocess, sys, tempfile

WIDTHS = 1400, 390
PROBE = """
const said = [], sleep = ms => new Promise(r => setTimeout(r, ms));
const seen = e => e.getClientRects().length > 0;
function cut(d, width, where) {          // what stands outside of the page, or of a box that hides what is too wide
  if (d.documentElement.scrollWidth > width) said.push(where + ': the page is ' + d.documentElement.scrollWidth + ' wide');
  for (const e of d.body.querySelectorAll('*')) {
    if (!seen(e)) continue;
    const over = d.defaultView.getComputedStyle(e).overflowX != 'visible' && e.scrollWidth > e.clientWidth + 1 && e.tagName != 'INPUT';
    if (e.getBoundingClientRect().right > width + 1 || over) { said.push(where + ': cut off: ' + e.tagName + ' ' + e.textContent.trim().slice(0, 60)); return; }
  }
}
function order(d) { return [...d.querySelectorAll('.defs > .def')].filter(seen).sort((a, b) => a.getBoundingClientRect().top - b.getBoundingClientRect().top).map(e => e.id).join(); }
function use(d, where, script) {         // the folds, the filter, the switch
  const defs = [...d.querySelectorAll('.defs > .def')], up = d.getElementById('up'), ask = (ok, what) => { if (!ok) said.push(where + ': ' + what); };
  if (!defs.length) return;
  const [fold, unfold] = d.querySelectorAll('.tools button'), box = d.querySelector('.tools input');
  ask(defs.every(e => e.open && seen(e)), 'a definition is closed at first');
  const down = order(d);
  up.checked = true;
  ask(order(d) != down, 'the switch leaves the order as it was');
  ask([...d.querySelectorAll('.defs > .up')].every(seen) && ![...d.querySelectorAll('.defs > .down')].some(seen), 'the headings are not those of the files');
  up.checked = false;
  ask(order(d) == down, 'the switch does not go back');
  ask(seen(box) == script, 'the filter is there without a script, or not there with one');
  if (!script) return;
  fold.click();
  ask(defs.every(e => !e.open), 'fold leaves one open');
  unfold.click();
  ask(defs.every(e => e.open), 'unfold leaves one closed');
  const name = defs[defs.length - 1].dataset.n, type = t => { box.value = t; box.dispatchEvent(new Event('input')); };
  type(name);
  ask(defs.every(e => seen(e) == e.dataset.n.includes(name)), 'the filter shows others than ' + name);
  type('no such name');
  ask(!defs.some(seen), 'the filter shows something for no name');
  type('');
  ask(defs.every(seen), 'the filter does not show all again');
  const summary = defs[0].querySelector('summary');
  summary.click(); ask(!defs[0].open, 'a summary does not fold'); summary.click();
}
async function look(page, width, script) {
  const f = document.createElement('iframe'), where = page + ' at ' + width + (script ? '' : ' without script');
  if (!script) f.sandbox = 'allow-same-origin';
  f.style.width = width + 'px'; f.style.height = '900px'; f.style.border = 0; f.src = page;
  document.body.append(f);
  await new Promise(r => f.onload = r); await sleep(20);
  const d = f.contentDocument;
  if (d.defaultView.innerWidth != width) said.push(where + ': the window is ' + d.defaultView.innerWidth + ' wide');
  use(d, where, script);
  for (const e of d.querySelectorAll('details')) e.open = true;
  cut(d, width, where);
  f.remove();
}
(async () => {
  for (const page of PAGES) for (const width of WIDTHS) for (const script of [true, false]) await look(page, width, script);
  document.body.innerHTML = '<pre id="said">' + said.length + ' looked ' + PAGES.length * WIDTHS.length * 2 + '</pre>';
  document.getElementById('said').append('\\n' + said.join('\\n'));
})();
"""


class Links(html.parser.HTMLParser):
    def __init__(self, text):
        super().__init__()
        self.ids, self.links = [], []
        self.feed(text)

    def handle_starttag(self, tag, attributes):
        for key, value in attributes:
            if key == "id":
                self.ids.append(value)
            elif key in ("href", "src", "action", "srcset", "data", "poster"):
                self.links.append(value)


def links(pages, folder):
    read = {name: Links(text) for name, text in pages.items()}
    for name, page in read.items():
        for twice in sorted({x for x in page.ids if page.ids.count(x) > 1} if len(set(page.ids)) < len(page.ids) else ()):
            yield f"{name}: the id {twice} is there twice"
        for link in dict.fromkeys(page.links):
            file, _, place = link.partition("#")
            if re.match(r"\w+:|//", link):
                yield f"{name}: a link leads outside: {link}"
            elif file and not (folder / file).is_file() or place and place not in read[file or name].ids:
                yield f"{name}: a link leads nowhere: {link}"
    for name in ("book.css", "book.js"):
        if re.search(r"https?:|@import|url\(|//\w", re.sub(r"//.*", "", (folder / name).read_text()) if name == "book.js" else (folder / name).read_text()):
            yield f"{name}: something is fetched"


def edits(name, text):
    for edit in re.findall(r'<div class="edit">(.*?)</div>', text, re.S):
        label, *parts = re.split(r'<span class="dim">([^<]*)</span>', edit)
        for file, body in zip(parts[::2], parts[1::2]):
            stands, shown = pathlib.Path("crates", file).read_text(), re.findall(r'<pre class="(\w+)">(.*?)</pre>', body, re.S)
            if not shown or [k for k, _ in shown] != ["old", "new"] * (len(shown) // 2) or any(html.unescape(x) not in stands for _, x in shown[::2]):
                yield f"{name}: {re.sub('<[^>]*>', '', label).strip()} of {file}: what is shown as standing there does not, or nothing replaces it"


def tidy(name, folder):
    got = subprocess.run(["tidy", "-q", "-e", "-utf8", "--drop-empty-elements", "no", name], cwd=folder, capture_output=True, text=True)
    return [f"tidy: {name}: {l}" for l in got.stderr.splitlines()]


def browser(names, folder):
    with tempfile.TemporaryDirectory() as scratch:
        copy = pathlib.Path(scratch) / "book"
        shutil.copytree(folder, copy)
        (copy / "probe.html").write_text(f"<!DOCTYPE html><meta charset=utf-8><body><script>const PAGES = {names}, WIDTHS = {list(WIDTHS)};{PROBE}</script>")
        root = ["--no-sandbox"] if os.getuid() == 0 else []
        command = ["chromium", "--headless", *root, "--disable-gpu", "--allow-file-access-from-files", f"--user-data-dir={scratch}/profile", "--window-size=1500,1000",
                   "--virtual-time-budget=600000", "--dump-dom", (copy / "probe.html").as_uri()]
        got = subprocess.run(command, capture_output=True, text=True, timeout=600)
    said = re.search(r'<pre id="said">(\d+) looked (\d+)\n(.*?)</pre>', got.stdout, re.S)
    if not said or int(said[2]) != len(names) * len(WIDTHS) * 2:
        return ["chromium did not come to the end of the pages: " + got.stderr[-400:]]
    return [html.unescape(l) for l in said[3].splitlines()]


def main():
    folder = pathlib.Path(sys.argv[1])
    missing = [x for x in ("chromium", "tidy") if not shutil.which(x)]
    if missing:
        print(f"book-test: not tried, since there is no {' and no '.join(missing)} here (Debian has packages of these names)")
        return 1
    pages = {p.name: p.read_text() for p in sorted(folder.glob("*.html"))}
    faults = [*links(pages, folder), *(x for name in pages for x in [*edits(name, pages[name]), *tidy(name, folder)]), *browser(list(pages), folder)]
    print("\n".join(faults[:60] + [f"book-test: {len(pages)} pages, {len(WIDTHS)} widths, with and without script; {len(faults)} faults"]))
    return bool(faults or not pages)


if __name__ == "__main__":
    sys.exit(main())
