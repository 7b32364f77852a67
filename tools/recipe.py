#!/usr/bin/env python3
"""Writes the script of a recipe of docs/RECIPES.md to standard output, with the head of the page where it has none.

usage: tools/recipe.py NAME    a recipe's heading in small letters, with a dash for each blank: `two-waiters`
       tools/recipe.py         the names of all
"""

import os
import re
import sys

PAGE = "docs/RECIPES.md"
HEAD = re.compile(r"^```head\n(.*?)^```$", re.M | re.S)
RECIPE = re.compile(r"^## ([^\n]*)\n\n```script\n(.*?)^```$", re.M | re.S)


def recipes():
    """The scripts of the page, by the names of their headings."""
    with open(PAGE, encoding="utf-8") as file:
        page = file.read()
    head = HEAD.search(page)[1]
    found = {}
    for heading, script in RECIPE.findall(page):
        has_head = re.search(r"^events$", script, re.M)
        found[heading.lower().replace(" ", "-")] = script if has_head else head + script
    return found


def main(words):
    os.chdir(os.path.join(os.path.dirname(os.path.abspath(__file__)), ".."))
    found = recipes()
    if len(words) > 1 or words and words[0] not in found:
        print(f"recipe: expected the name of a recipe, one of {', '.join(found)}", file=sys.stderr)
        return 2
    sys.stdout.write(found[words[0]] if words else "".join(f"{it}\n" for it in found))
    return 0


if __name__ == "__main__":
    sys.exit(main(sys.argv[1:]))
