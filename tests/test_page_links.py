"""Whether each link of a page leads to a file, each anchor to a heading there, and README.md to each page of docs/."""
import pathlib
import re

import pytest
from programs import TOP

PAGES = [*sorted(TOP.glob("*.md")), *sorted(TOP.glob("docs/*.md")), *sorted(TOP.glob("examples/*.md"))]
CODE = re.compile(r"^```.*?^```$", re.M | re.S)
LINK = re.compile(r"\]\(([^)\s]+)\)")


def anchors(page: str) -> set[str]:
    """The names by which a link finds the headings of a page, and those that it gives by itself."""
    text = CODE.sub("", page)
    headings = [re.sub(r"\[([^]]*)\]\([^)]*\)", r"\1", it).lower() for it in re.findall(r"^#+ (.*)$", text, re.M)]
    named = re.findall(r'<a id="([^"]+)"', text)
    return {re.sub(r"[^\w\- ]", "", it).replace(" ", "-") for it in headings} | set(named)


def leads_nowhere(link: str, page: pathlib.Path) -> bool:
    """Whether a link of this page leads to no file, or to no heading of it."""
    name, _, anchor = link.partition("#")
    file = page.parent / name if name else page
    return not file.exists() or bool(anchor) and file.suffix == ".md" and anchor not in anchors(file.read_text())


@pytest.mark.parametrize("page", PAGES, ids=[str(it.relative_to(TOP)) for it in PAGES])
def test_each_link_leads_somewhere(page: pathlib.Path) -> None:
    links = [it for it in LINK.findall(CODE.sub("", page.read_text())) if not it.startswith(("http:", "https:"))]
    assert [it for it in links if leads_nowhere(it, page)] == []


def test_readme_leads_to_each_page() -> None:
    linked = set(LINK.findall((TOP / "README.md").read_text()))
    pages = [str(it.relative_to(TOP)) for it in PAGES if it.parent == TOP / "docs"]
    assert len(pages) > 20
    assert [it for it in pages if it not in linked] == []
