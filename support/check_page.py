#!/usr/bin/env python3
"""Checks a page of sidebyside and prints how many vertices and edges it draws.

check_page.py PAGE: the page must be well-formed XML, and must need no script, no network and no other file.
Prints a line for each side: the elements of the classes vertex, strong and weak in its graph."""

import re
import sys
import xml.etree.ElementTree as tree

SVG = "{http://www.w3.org/2000/svg}svg"
CLASSES = ("vertex", "strong", "weak")
# What would fetch or run something.
FORBIDDEN_TAGS = {"script", "link", "img", "image", "iframe", "object", "embed", "use", "base", "form"}
FORBIDDEN_ATTRIBUTES = re.compile(r"^(src|href|action|data|on\w+)$")
FORBIDDEN_STYLE = re.compile(r"@import|url\(\s*['\"]?(?!#)", re.IGNORECASE)


def local(name):
    return name.rsplit("}", 1)[-1]


def fail(message):
    sys.exit(f"check_page: {sys.argv[1]}: {message}")


def check(root):
    for element in root.iter():
        tag = local(element.tag)
        if tag in FORBIDDEN_TAGS:
            fail(f"has the element {tag}")
        for name, value in element.attrib.items():
            if FORBIDDEN_ATTRIBUTES.match(local(name)) and not value.startswith("#"):
                fail(f"{tag} has the attribute {name}")
            if FORBIDDEN_STYLE.search(value):
                fail(f"{tag} has the value {value}")
        if tag == "style" and FORBIDDEN_STYLE.search(element.text or ""):
            fail("a style fetches something")
    ids = [element.get("id") for element in root.iter() if element.get("id")]
    if len(ids) != len(set(ids)):
        fail("an id stands twice")
    if not any(local(element.tag) == "title" and element.text for element in root.iter()):
        fail("has no title")


def main():
    if len(sys.argv) != 2:
        sys.exit("usage: check_page.py PAGE")
    try:
        root = tree.parse(sys.argv[1]).getroot()
    except (OSError, tree.ParseError) as error:
        fail(error)
    check(root)
    for side in ("left", "right"):
        drawn = [element for svg in root.iter(SVG) if svg.get("id") == side for element in svg.iter()]
        counts = [sum(name in element.get("class", "").split() for element in drawn) for name in CLASSES]
        print(side, *(f"{name} {count}" for name, count in zip(CLASSES, counts)))


main()
