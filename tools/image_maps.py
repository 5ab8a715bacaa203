"""The maps of an object, from its type information: the rows of an image, and which types of maps become others."""

import struct
from dataclasses import dataclass, field

from objects import Object, Refused
from type_information import Type, Types

HASH, ARRAY, PERCPU_HASH, PERCPU_ARRAY, LRU_HASH, LRU_PERCPU_HASH = 1, 2, 5, 6, 9, 10
CALLED = {
    1: "HASH", 2: "ARRAY", 3: "PROG_ARRAY", 4: "PERF_EVENT_ARRAY", 5: "PERCPU_HASH", 6: "PERCPU_ARRAY",
    7: "STACK_TRACE", 9: "LRU_HASH", 10: "LRU_PERCPU_HASH", 11: "LPM_TRIE", 12: "ARRAY_OF_MAPS", 13: "HASH_OF_MAPS",
    14: "DEVMAP", 16: "CPUMAP", 17: "XSKMAP", 22: "QUEUE", 23: "STACK", 25: "DEVMAP_HASH", 27: "RINGBUF",
    30: "BLOOM_FILTER",
}  # fmt: skip
BECOMES = {PERCPU_HASH: HASH, PERCPU_ARRAY: ARRAY, LRU_HASH: HASH, LRU_PERCPU_HASH: HASH}
ONE_PROCESSOR = "with one value for each key, which is exact: one processor runs the filter, and user space sees one value"
NO_ROOM = "which differs where the map is full: an update with a new key is refused, and no old key makes room"
MOST_MAPS, MOST_KEY, MOST_VALUE, MOST_ENTRIES, MOST_ROOM = 16, 64, 4096, 65536, 1 << 24
ROW = "<HHII"


@dataclass
class Maps:
    """The maps of an object: their rows and names, in the order of .maps, and then those of its variables; the index of
    each by its offset in .maps; what is said of maps that became others."""

    rows: list[bytes] = field(default_factory=list)
    names: list[str] = field(default_factory=list)
    numbers: dict[int, int] = field(default_factory=dict)
    notes: list[str] = field(default_factory=list)

    def add(self, name: str, row: bytes) -> int:
        """Adds a map, unless there is no room for one more; its index."""
        self.rows.append(row)
        self.names.append(name)
        if len(self.rows) > MOST_MAPS:
            raise Refused(f"with {name} there are {len(self.rows)} maps, and an image has at most {MOST_MAPS}")
        room = sum((key + value) * entries for _, key, value, entries in (struct.unpack(ROW, it) for it in self.rows))
        if room > MOST_ROOM:
            raise Refused(f"with {name} the maps have {room:,} bytes together, and an image's have at most {MOST_ROOM:,}")
        return len(self.rows) - 1


@dataclass(frozen=True)
class MapType:
    """The type of a map in an image, and what is said of it where the object has another one."""

    kind: int
    note: str = ""


def map_type(name: str, kind: int, lru_as_hash: bool) -> MapType:
    """The type that a map of this type gets in an image."""
    called = f"{CALLED[kind]} ({kind})" if kind in CALLED else str(kind)
    if kind in (HASH, ARRAY):
        return MapType(kind)
    if kind not in BECOMES:
        raise Refused(f"map {name}: its type is {called}; there are HASH (1) and ARRAY (2)")
    if kind in (LRU_HASH, LRU_PERCPU_HASH) and not lru_as_hash:
        raise Refused(f"map {name}: its type is {called}; with --lru-as-hash it becomes HASH, {NO_ROOM}")
    said = [ONE_PROCESSOR] * (kind != LRU_HASH) + [NO_ROOM] * (kind in (LRU_HASH, LRU_PERCPU_HASH))
    return MapType(BECOMES[kind], f"map {name}: {CALLED[kind]} becomes {CALLED[BECOMES[kind]]}, {'; '.join(said)}")


def map_row(types: Types, variable: Type, lru_as_hash: bool) -> tuple[bytes, str]:
    """The row of a map, and what is said of its type. The members of its definition are pointers: to an array whose
    length is a number, or to a type."""
    name, parts = variable.name, types.pointed(variable.size)
    if "type" not in parts or "max_entries" not in parts:
        raise Refused(f"map {name}: it has no type, or no max_entries")
    its = map_type(name, types.length(parts["type"]), lru_as_hash)
    if "map_flags" in parts and types.length(parts["map_flags"]):
        raise Refused(f"map {name}: there are no flags of maps here")
    if "values" in parts:
        raise Refused(f"map {name}: its definition has values, which are maps or programs, and there are none of these here")
    key, value = (
        types.length(parts[part + "_size"]) if part + "_size" in parts else types.size(parts[part]) for part in ("key", "value")
    )
    entries = types.length(parts["max_entries"])
    if not 1 <= entries <= MOST_ENTRIES:
        raise Refused(f"map {name}: its max_entries is {entries:,}, and 1 to {MOST_ENTRIES:,} are possible")
    for what, size, most in (("key", key, MOST_KEY), ("value", value, MOST_VALUE)):
        if not 1 <= size <= most:
            raise Refused(f"map {name}: its {what} has {size:,} bytes, and 1 to {most:,} are possible")
    if its.kind == ARRAY and key != 4:
        raise Refused(f"map {name}: the key of an array has 4 bytes, and this one has {key}")
    return struct.pack(ROW, its.kind, key, value, entries), its.note


def maps_of(it: Object, lru_as_hash: bool) -> Maps:
    """The maps that are defined in .maps."""
    if it.section("maps") is not None:
        raise Refused('its maps are in the old section "maps": define them with SEC(".maps"), as libbpf does')
    section, data, found = it.section(".maps"), it.body(".BTF"), Maps()
    if section is None:
        return found
    if data is None:
        raise Refused("the object has maps, and no type information: compile with -g")
    types = Types(data)
    rows = {variable.name: map_row(types, variable, lru_as_hash) for variable in types.variables(".maps")}
    for place, name in sorted((one.value, one.name) for one in it.symbols if one.section == section and one.name in rows):
        row, note = rows[name]
        found.numbers[place] = found.add(name, row)
        found.notes += [note] if note else []
    return found
