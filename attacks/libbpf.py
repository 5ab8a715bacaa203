"""libbpf by ctypes, without headers or a compiler: opens objects, says what it found in them, loads and attaches
them."""

import ctypes
from typing import NamedTuple

VOID, TEXT, WORD, NUMBER = ctypes.c_void_p, ctypes.c_char_p, ctypes.c_uint, ctypes.c_int
FUNCTIONS = {
    "bpf_object__open_mem": (VOID, [TEXT, ctypes.c_size_t, VOID]),
    "bpf_object__load": (NUMBER, [VOID]),
    "bpf_object__close": (None, [VOID]),
    "bpf_object__next_map": (VOID, [VOID, VOID]),
    "bpf_object__next_program": (VOID, [VOID, VOID]),
    "bpf_map__name": (TEXT, [VOID]),
    "bpf_program__name": (TEXT, [VOID]),
    "bpf_program__section_name": (TEXT, [VOID]),
    "bpf_program__type": (WORD, [VOID]),
    "bpf_program__attach_xdp": (VOID, [VOID, NUMBER]),
    "bpf_program__fd": (NUMBER, [VOID]),
    "bpf_link__destroy": (NUMBER, [VOID]),
    "libbpf_set_print": (VOID, [VOID]),
    **{f"bpf_map__{part}": (WORD, [VOID]) for part in ("type", "key_size", "value_size", "max_entries")},
}
XDP = 6  # BPF_PROG_TYPE_XDP


class Found(NamedTuple):
    """What libbpf found in an object: programs with section and type, and the rows of the maps in its order."""

    programs: list[tuple[str, str, int]]
    rows: list[tuple[int, int, int, int]]


class Library:
    """The library; OSError where there is none."""

    def __init__(self) -> None:
        self.it = ctypes.CDLL("libbpf.so.1", use_errno=True)
        for name, (result, arguments) in FUNCTIONS.items():
            function = getattr(self.it, name)
            function.restype, function.argtypes = result, arguments
        self.it.libbpf_set_print(None)

    def opened(self, data: bytes) -> int:
        handle = self.it.bpf_object__open_mem(data, len(data), None)
        if not handle:
            raise OSError(ctypes.get_errno(), "libbpf does not open the object")
        return int(handle)

    def each(self, kind: str, handle: int) -> list[int]:
        found: list[int] = []
        step = getattr(self.it, f"bpf_object__next_{kind}")
        one: int | None = step(handle, None)
        while one:
            found.append(one)
            one = step(handle, one)
        return found

    def found(self, data: bytes) -> Found:
        """What is in an object; nothing is loaded."""
        handle, it = self.opened(data), self.it
        programs, rows = [], []
        for one in self.each("program", handle):
            names = it.bpf_program__name(one).decode(), it.bpf_program__section_name(one).decode()
            programs.append((*names, int(it.bpf_program__type(one))))
        for one in self.each("map", handle):
            parts = ("type", "key_size", "value_size", "max_entries")
            kind, key, value, entries = (int(getattr(it, f"bpf_map__{part}")(one)) for part in parts)
            rows.append((kind, key, value, entries))
        it.bpf_object__close(handle)
        return Found(programs, rows)

    def loads(self, data: bytes, interface: int = 0) -> bool:
        """Whether the kernel takes the object, and the program on the interface, if one is given; all is closed
        again."""
        handle, it = self.opened(data), self.it
        try:
            if it.bpf_object__load(handle):
                return False
            if interface:
                link = it.bpf_program__attach_xdp(self.each("program", handle)[0], interface)
                if not link:
                    raise OSError(ctypes.get_errno(), "libbpf loads the program, and does not attach it")
                it.bpf_link__destroy(link)
            return True
        finally:
            it.bpf_object__close(handle)


def library() -> Library | None:
    """The library, where it is there."""
    try:
        return Library()
    except OSError:
        return None
