"""Links of a page to other pages, which lead to files and headings that are there."""
import functools
import os
import re

from pages import Fault, TOP

LINK = re.compile(r"\]\(([^)\s]+)\)")


def anchor(heading):
    """The name by which a link leads to a heading."""
    text = re.sub(r"[^\w\- ]", "", heading.lower())
    return text.replace(" ", "-")


@functools.cache
def anchors(path):
    """The names of the headings of a page."""
    with open(path, encoding="utf-8") as file:
        return {anchor(line.lstrip("#").strip()) for line in file if line.startswith("#")}


def fault_of(name, link):
    """What is wrong with a link of the page of that name, or None."""
    path, _, heading = link.partition("#")
    if "://" in link or link.startswith("mailto:"):
        return None
    path = os.path.normpath(os.path.join(TOP, os.path.dirname(name), path)) if path \
        else os.path.join(TOP, name)
    if not os.path.exists(path):
        return "no file is at %s" % link
    if heading and heading not in anchors(path):
        return "no heading is at %s" % link
    return None


def filled(page, name):
    """The page as it is, whose links lead somewhere."""
    faults = [fault_of(name, link) for link in LINK.findall(page)]
    for fault in faults:
        if fault:
            raise Fault(fault)
    return page
