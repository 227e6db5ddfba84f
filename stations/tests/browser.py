"""The page in headless Chromium: what it measures there, a picture of it, its print.

usage: browser.py PICTURE    writes a picture of the sample's page
"""

import json
import os
import re
import shutil
import subprocess
import sys
import tempfile

CHROMIUM = next(filter(None, map(shutil.which, ("chromium", "chromium-browser", "google-chrome"))), None)
WIDTH = 1040

# Put into a copy of the page, to say what the browser made of it: texts of a picture that overlap, leave it or lie on a kept plan's mark, what is wider than the page,
# marks and rows counted.
MEASURE = """
<script>
// by more than a little: a line's box is higher than its letters
const meet = (a, b, across, down) => Math.min(a.right, b.right) - Math.max(a.left, b.left) > across && Math.min(a.bottom, b.bottom) - Math.max(a.top, b.top) > down;
const boxes = [...document.querySelectorAll('figure svg text')].map(t => [t.textContent, t.getBoundingClientRect(), t.closest('svg').getBoundingClientRect()]);
const circles = [...document.querySelectorAll('figure svg circle')].map(c => c.getBoundingClientRect());
const found = { overlaps: [], outside: [], covered: [], wide: document.documentElement.scrollWidth > document.documentElement.clientWidth };
for (let a = 0; a < boxes.length; a++) {
  const [text, box, whole] = boxes[a];
  if (box.left < whole.left - 1 || box.right > whole.right + 1 || box.top < whole.top - 1 || box.bottom > whole.bottom + 1) found.outside.push(text);
  for (let b = 0; b < a; b++) if (meet(box, boxes[b][1], 1, 4)) found.overlaps.push(text + ' / ' + boxes[b][0]);
  if (circles.some(circle => meet(box, circle, 2, 4))) found.covered.push(text);
}
found.height = document.documentElement.scrollHeight;
found.kept = document.querySelectorAll('figure circle.kept').length;
found.rows = document.querySelectorAll('tbody tr').length;
document.title = 'MEASURED' + JSON.stringify(found) + 'END';
</script>
"""


def chromium(page, *arguments, output=False):
    """Runs Chromium on a page from disk, with no way to a network."""
    with tempfile.TemporaryDirectory() as profile:
        command = [CHROMIUM, "--headless", "--no-sandbox", "--disable-gpu", "--hide-scrollbars", f"--user-data-dir={profile}", "--proxy-server=127.0.0.1:9",
                   "--force-device-scale-factor=1", *arguments, "file://" + os.path.abspath(page)]
        done = subprocess.run(command, stdout=subprocess.PIPE, stderr=subprocess.DEVNULL, timeout=300, check=True)
    return done.stdout.decode() if output else None


def measured(page, width=WIDTH):
    """What the browser made of a page."""
    with open(page, encoding="utf-8") as file:
        content = file.read()
    copy = page + ".measured.html"
    with open(copy, "w", encoding="utf-8") as file:
        file.write(content.replace("</body>", MEASURE + "</body>"))
    title = re.search(r"<title>MEASURED(.*)END</title>", chromium(copy, f"--window-size={width},1000", "--dump-dom", output=True))
    os.unlink(copy)
    return json.loads(title[1].replace("&lt;", "<").replace("&gt;", ">").replace("&amp;", "&"))


def picture(page, path, height):
    chromium(page, f"--window-size={WIDTH},{height}", f"--screenshot={os.path.abspath(path)}")


def printed(page, path):
    """The page as a PDF; how many sheets it has."""
    chromium(page, "--no-pdf-header-footer", f"--print-to-pdf={os.path.abspath(path)}")
    with open(path, "rb") as file:
        return len(re.findall(rb"/Type\s*/Page\b", file.read()))


def keep(path):
    """A picture of the sample's page, from its top to the end of the kept plans."""
    from common import COLUMNS, PLANS, TRIALS

    with tempfile.TemporaryDirectory() as folder:
        stem = os.path.join(folder, "trials")
        for arguments in (["table", TRIALS, *COLUMNS, "--title", "Block 12, drip trials", "--to", stem], ["report", stem + ".pool", stem + ".table"]):
            if PLANS.main(arguments) != 0:
                sys.exit(1)
        picture(stem + ".html", path, 1510)


if __name__ == "__main__":
    if CHROMIUM is None:
        sys.exit("browser.py: no Chromium is installed")
    keep(os.path.abspath(sys.argv[1]))
