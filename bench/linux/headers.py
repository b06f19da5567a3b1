"""The names that Linux's headers give to users of SRCU and of its notifier chains, and whether a page has them."""

import fnmatch, re

from building import text_of

HEADERS = ["srcu", "srcutree", "notifier"]


def names_in(text):
    """Returns the names that a header defines or declares, but for its guard."""
    text = re.sub(r"/\*.*?\*/", "", text, flags=re.S).replace("\\\n", " ")
    macros = re.findall(r"^#\s*define\s+(\w+)", text, re.M)
    functions = re.findall(r"^(?!#|\s)[\w \t*]*?\b(\w+)\(", text, re.M)
    types = re.findall(r"^struct (\w+) \{", text, re.M)
    return {name for name in [*macros, *functions, *types] if not name.startswith("_LINUX_")}


def tell_missing(tree, page):
    """Prints the names that don't stand on the page, nor fit one with a star there. Returns 1 where there is one."""
    words = set(re.findall(r"\w+", text_of(page)))
    families = [word for span in re.findall(r"`[^`\n]+`", text_of(page)) for word in re.findall(r"[\w*]+", span) if "*" in word]
    names = set().union(*(names_in(text_of(f"{tree}/include/linux/{header}.h")) for header in HEADERS))
    missing = sorted(name for name in names - words if not any(fnmatch.fnmatchcase(name, it) for it in families))
    print("".join(f"{name}\n" for name in missing) + f"{len(names)} names, {len(missing)} not on the page")
    return 1 if missing else 0
