"""Whether docs/proved.md names each library of the toolchain that the crates stand on."""
import re

from programs import TOP


def libraries() -> set[str]:
    """The libraries in crates.txt that aren't of this repository."""
    lines = (line.partition("#")[0].partition(":") for line in (TOP / "crates.txt").read_text().splitlines())
    crates = {head.split()[0]: rest.split() for head, _, rest in lines if head.strip()}
    return {name for below in crates.values() for name in below} - crates.keys()


def test_what_is_trusted_is_named_whole() -> None:
    _, _, page = (TOP / "docs" / "proved.md").read_text().partition("## What is trusted")
    [named] = re.findall(r"- The toolchain's library.*?(?=\n- )", page, re.S)
    assert set(re.findall(r"`(\w+)`", named)) - {"std"} == libraries()
