"""Each relative link of each page leads to a file that is there, and to a heading that it has."""
import collections
import re
import subprocess

import pytest
from conftest import ROOT

FENCE = re.compile(r"^ *(```|~~~).*?^ *\1[^\n]*$", re.M | re.S)
LINK = re.compile(r"\[(?:[^\[\]]|\[[^\[\]]*\])*\]\(([^()\s]+)\)")


def pages():
    """All pages of the repository; those that git knows, where there is git."""
    listed = subprocess.run(["git", "ls-files", "-z", "*.md"], cwd=ROOT, capture_output=True, text=True, check=False).stdout
    names = [name for name in listed.split("\0") if name] or [str(file.relative_to(ROOT)) for file in ROOT.rglob("*.md")]
    return sorted(name for name in names if not name.endswith(".edit.md") and (ROOT / name).is_file())


def anchors(text):
    """What a link may name behind #: each heading in lower case, with - for a space and without marks; the second equal one has -1."""
    found, seen = set(), collections.Counter()
    for heading in re.findall(r"^#{1,6} +(.*?) *$", FENCE.sub("", text), re.M):
        name = re.sub(r"\[([^\]]*)\]\([^)]*\)", r"\1", heading)
        name = re.sub(r"[^\w\- ]", "", name.lower()).replace(" ", "-")
        found.add(f"{name}-{seen[name]}" if seen[name] else name)
        seen[name] += 1
    return found


def broken(name):
    """The links of a page that lead nowhere."""
    file, wrong = ROOT / name, []
    text = file.read_text()
    for link in LINK.findall(re.sub(r"`[^`\n]*`", "", FENCE.sub("", text))):
        path, _, anchor = link.partition("#")
        if re.match(r"[a-z]+:", path):
            continue
        target = (file.parent / path).resolve() if path else file
        if not target.exists() or anchor and target.suffix == ".md" and anchor not in anchors(target.read_text()):
            wrong.append(link)
    return wrong


def test_anchors():
    """As those of the pages' own site are made."""
    text = "# A `word`, and [a link](x.md)\n## Rows (`--format csv`)\n## Rows (`--format csv`)\n```sh\n# no heading\n```\n"
    assert anchors(text) == {"a-word-and-a-link", "rows---format-csv", "rows---format-csv-1"}


@pytest.mark.parametrize("name", pages())
def test_each_link_of_a_page(name):
    assert broken(name) == []


def test_pages_are_found():
    """Those of each folder that has some, and each that the index names."""
    assert {"README.md", "docs/README.md", "board/README.md", "cases/README.md", "examples/README.md"} <= set(pages())
    named = {link for link in LINK.findall((ROOT / "docs/README.md").read_text()) if re.fullmatch(r"[A-Z]+\.md", link)}
    assert named == {file.name for file in (ROOT / "docs").glob("*.md")} - {"README.md"}


def test_links_that_lead_nowhere_are_found(tmp_path):
    """A file and a heading that aren't there; not what is code, or another site's."""
    page = tmp_path / "page.md"
    page.write_text("# One\n[a](none.md) [b](page.md#two) [c](#one) [d](page.md#one) `[e](none.md)` [f](https://example.org/#x)\n```\n[g](none.md)\n```\n")
    assert broken(page) == ["none.md", "page.md#two"]
