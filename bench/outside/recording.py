"""Writes the scenes for a program that plays them, and keeps what it printed.

usage: python3 recording.py scenes COUNT > scenes.rt
       python3 recording.py keep < printed > recorded.txt
"""
import sys

sys.dont_write_bytecode = True  # the repository keeps no __pycache__

import re

from made.scenes import scenes
from values import Datagram, Ended, Piece

HEAD = """//! The runs.

use scenario::Coming;

pub struct Scene<'a> {
    pub name: &'a str,
    pub is_adig: bool,
    pub line: &'a str,
    pub resolv: Option<&'a [u8]>,
    pub hosts: Option<&'a [u8]>,
    pub words: &'a [u16],
    pub comings: &'a [Coming<'a>],
    pub fails: &'a [u64],
    pub turns: u64,
}

pub const SCENES: &[Scene<'static>] = &[
"""


def text(data):
    return 'b"' + "".join(f"\\x{byte:02x}" for byte in data) + '"'


def coming(item):
    moment, got = item
    if isinstance(got, Datagram):
        return f"Coming::Datagram {{ from: {moment}, server: {got.server}, bytes: {text(got.bytes)} }}"
    if isinstance(got, Piece):
        return f"Coming::Piece {{ from: {moment}, link: {got.link}, bytes: {text(got.bytes)} }}"
    assert isinstance(got, Ended)
    return f"Coming::End {{ from: {moment}, link: {got.link} }}"


def maybe(data):
    return "None" if data is None else f"Some({text(data)})"


def write_scenes(count):
    print(HEAD, end="")
    for made in scenes(count):
        items = ", ".join(map(coming, made.items))
        print(f'    Scene {{ name: "{made.name}", is_adig: {str(made.is_adig).lower()}, line: "{made.line}", '
              f"resolv: {maybe(made.resolv)}, hosts: {maybe(made.hosts)}, words: &{made.words}, comings: &[{items}], "
              f"fails: &{made.fails}, turns: {made.turns} }},")
    print("];")


def short(line):
    """A printed line with each list of numbers as hexadecimal."""
    line = re.sub(r"\[([0-9, ]*)\]", lambda found: "x" + bytes(
        int(word) for word in found.group(1).replace(" ", "").split(",") if word).hex(), line)
    return re.sub(r"ItemList \{ items: (x[0-9a-f]*) \}", r"\1", line.strip())


def main(words):
    if words[:1] == ["scenes"]:
        write_scenes(int(words[1]))
    elif words == ["keep"]:
        for line in sys.stdin:
            if line.split(" ")[0] in ("run", "entry", "answer", "call"):
                print(short(line))
    else:
        print(__doc__)


if __name__ == "__main__":
    main(sys.argv[1:])
