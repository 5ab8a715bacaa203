"""The variables and constants of an object: each section of them is an array with one key, which begins with their
bytes."""

from objects import NO_BITS, Object, Refused

KEY = "00000000"  # the one key of such an array, in hexadecimal
SECTIONS = (".bss", ".data", ".rodata")


def is_of_values(name: str) -> bool:
    """Whether a section of this name has variables or constants."""
    return name in SECTIONS or name.startswith(tuple(f"{it}." for it in SECTIONS))


def words_for(it: Object, section: int, at: int) -> str:
    """The words for what is at a place of such a section."""
    name, home = it.variable(section, at), it.section_name(section)
    if home.startswith(".rodata"):
        return f"the constant {name}" if name else "a constant table, a string or a table of jumps"
    return f"the variable {name}" if name else f"a variable of {home}"


def value_of(it: Object, section: int) -> bytes:
    """The bytes that a section begins with. One that has addresses is refused: where things are is not known before
    they are loaded."""
    if it.types[section] == NO_BITS:
        return bytes(it.sizes[section])
    if len(it.bodies[section]) != it.sizes[section]:
        raise Refused(f"the section {it.names[section]} is not inside the file")
    for at in sorted(it.relocations(section)):
        what = words_for(it, section, at)
        raise Refused(
            f"{what} has an address, at byte {at} of {it.names[section]}: a map's value has numbers, and no address"
            " that is known only where the program is loaded; choose by `if` or `switch` in place of a pointer"
        )
    return it.bodies[section]


def lines_of(values: dict[int, bytes]) -> str:
    """The map lines of values by the index of their map; a map begins as zeros, so zeros need no line."""
    return "".join(f"map {index} {KEY} {value.hex()}\n" for index, value in sorted(values.items()) if any(value))
