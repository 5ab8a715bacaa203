#!/usr/bin/env python3
"""names.py: finds public types, traits and relations of two crates that have one name.

A type or trait is one of `src/`; a relation is a definition of `specs/` whose name begins with a
capital letter, worked examples aside. Test crates export nothing. Prints each name that SHARED
does not explain, with the files that declare it. The status is 0, or 1 if there is one. In the
gate."""
import collections
import glob
import os
import re
import sys
from collections.abc import Collection

from common import TOP, text_of


Places = dict[str, dict[str, list[str]]]  # the files that declare a name, by crate

# names that crates share on purpose, and why
SHARED = {
    "Has": "of each domain of numbers",
    "Encloses": "of each domain of numbers",
    "IsConstant": "of each domain of numbers",
    "IsLimit": "of each domain of numbers",
    "IsSharp": "of each domain of numbers",
    "State": "the machine's, and the abstract one",
    "Refusal": "of the crate's own",
    "ReportForm": "the type of host, and what it means",
    "FrameClock": "the same clock in host and in the library",
}

TYPE = re.compile(r"^pub (?:unsafe )?(?:struct|enum|trait|type|union) (\w+)", re.M)
RELATION = re.compile(r"^(?:(?:abbrev|unfoldable) )*pub (?:(?:record|data) )?([A-Z][\w'-]*)", re.M)


def names_of(top: str) -> Places:
    """The files that declare each name, by crate."""
    places: Places = collections.defaultdict(lambda: collections.defaultdict(list))
    for pattern, form in (("src/**/*.rt", TYPE), ("specs/**/*.antt", RELATION)):
        for path in sorted(glob.glob(f"crates/*/{pattern}", root_dir=top, recursive=True)):
            crate = path.split("/")[1]
            if crate.endswith("_tests") or "/specs/Worked/" in path:
                continue
            for name in form.findall(text_of(os.path.join(top, path))):
                places[name][crate].append(path)
    return places


def wrong_names(top: str, shared: Collection[str]) -> list[str]:
    """A line for each name of several crates that is not in the list, and for each needless one."""
    places = names_of(top)
    lines = []
    for name in sorted(places):
        paths = [path for found in places[name].values() for path in found]
        if len(places[name]) > 1 and name not in shared:
            lines.append(f"{name}: {', '.join(paths)}")
    return lines + [
        f"{name}: in the list of shared names, and not of two crates" for name in sorted(shared) if len(places.get(name, ())) < 2
    ]


if __name__ == "__main__":
    LINES = wrong_names(TOP, SHARED)
    print("\n".join(LINES + [f"{len(LINES)} public names with two meanings"]))
    sys.exit(1 if LINES else 0)
