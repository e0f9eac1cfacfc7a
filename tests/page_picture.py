"""Writes docs/pages/moment.svg: the drawing of the page of examples/lease.log, as a browser draws it when it opens.

Debian's own Python runs it: /usr/bin/python3 tests/page_picture.py"""
import pathlib
import re
import tempfile

from page_browser import Browser
from page_helper import TOP, Options, page_of, read_shiviz

PICTURE = TOP / "docs" / "pages" / "moment.svg"
SIZE = (1080, 640)
TAKE = """
    const drawing = document.getElementById("drawing").cloneNode(true);
    for (const path of drawing.querySelectorAll("path:not([d]), path[d='']")) path.remove();
    return new XMLSerializer().serializeToString(drawing);"""


def style() -> str:
    """The colours of both modes and the rules of the drawing, out of the page's own style."""
    text = (TOP / "crates" / "draw_page" / "page" / "page.css").read_text(encoding="utf-8")
    colours = text[text.index(":root"):text.index("* {")]
    rules = text[text.index("/* The drawing. */"):].partition("\n")[2]
    return colours + "\n".join(re.sub(r", \.key [^,{]*", "", line) for line in rules.splitlines()) + "\n"


def main() -> None:
    log = read_shiviz(TOP / "examples" / "lease.log")
    options = Options({name: ("while", "holds|writes") for name in ("ada", "ben")}, title="lease.log")
    with tempfile.TemporaryDirectory() as room:
        browser = Browser(pathlib.Path(room))
        try:
            browser.open(page_of(log, options), size=SIZE)
            browser.settle()
            drawn = browser.run(TAKE)
        finally:
            browser.driver.quit()
    line = re.search(r'class="moment" d="M[-\d.]+ [\d.]+V([\d.]+)"', drawn)
    box = re.search(r'viewBox="0 0 (\d+)', drawn)
    assert line and box, drawn[:500]
    height, width = round(float(line[1])) + 12, int(box[1])
    head, _, rest = drawn.partition(">")
    head = re.sub(r'viewBox="[^"]*"', f'viewBox="0 0 {width} {height}"', head)
    head = re.sub(r' (?:width|height|style)="[^"]*"', "", head)
    told = "A space-time diagram of examples/lease.log: ada and ben both hold the lease at the moment; what led to " \
           "it is blue, the conditions that could hold at once orange"
    front = f'{head} width="{width}" height="{height}">\n<title>{told}</title>\n<style>\n{style()}</style>\n'
    ground = '<rect width="100%" height="100%" fill="var(--ground)"/>\n'
    PICTURE.write_text(f"{front}{ground}{rest}\n", encoding="utf-8")
    print(f"{PICTURE.relative_to(TOP)}: {PICTURE.stat().st_size} bytes")


if __name__ == "__main__":
    main()
