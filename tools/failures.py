"""How the tools say what failed: the causes in the words of xdpvm, the reason before the usage, and no control character."""
import argparse
import errno
import os
import sys
from typing import NoReturn

# The causes of a system error, as crates/commands/src/causes.rt has them.
CAUSES = {
    errno.ENOENT: "no such file or folder",
    errno.EACCES: "permission denied",
    errno.EPERM: "permission denied",
    errno.EISDIR: "it is a folder",
    errno.ENOTDIR: "a part of the path is not a folder",
    errno.EEXIST: "it already exists",
    errno.EROFS: "the file system is read-only",
    errno.ELOOP: "the path has a loop of links",
    errno.ENAMETOOLONG: "the name is not valid",
    errno.EINVAL: "the path or the request is not valid",
    errno.ENOSPC: "no space is left",
    errno.EDQUOT: "the quota is used up",
    errno.EFBIG: "the file is too large",
    errno.EBUSY: "it is in use",
    errno.ETXTBSY: "it is a running program",
    errno.EPIPE: "its reader has closed it",
    errno.EINTR: "the call was interrupted",
    errno.EAGAIN: "the call would block",
    errno.ETIMEDOUT: "it timed out",
    errno.EOPNOTSUPP: "the operation is not supported",
    errno.ENOSYS: "the operation is not supported",
    errno.ENOMEM: "out of memory",
}
# Characters that steer a terminal, and bytes of a name that are not UTF-8 as Python has them.
ESCAPES = {at: f"\\x{at:02x}" for at in (*range(32), *range(127, 160))} | {0xDC00 + at: f"\\x{at:02x}" for at in range(128, 256)}


def shown(name: str) -> str:
    """A name as messages show it: what steers a terminal is escaped, as \\x1b."""
    return name.translate(ESCAPES)


def cleaned(text: str) -> str:
    """The text of a message with the words of the command line as they are shown. Its own line feeds stay."""
    for word in sorted(set(sys.argv[1:]), key=len, reverse=True):
        if word != shown(word):
            text = text.replace(word, shown(word))
    return "".join(it if it in "\n\t" else shown(it) for it in text)


def cause(why: OSError) -> str:
    """Why a call of the system failed."""
    return CAUSES.get(why.errno or 0, why.strerror or str(why))


def said(why: OSError, otherwise: str | None = None) -> str:
    """The file of a system error, or what is named for it otherwise, and the cause."""
    name = why.filename if why.filename is not None else otherwise
    return cause(why) if name is None else f"{os.fsdecode(name) if isinstance(name, bytes) else name}: {cause(why)}"


def tell(text: str) -> None:
    """Says something on standard error."""
    print(cleaned(text), file=sys.stderr)


def end(text: str) -> NoReturn:
    """Ends the tool with a message."""
    tell(text)
    sys.exit(1)


def tool() -> str:
    """The name by which the tool was called."""
    return os.path.basename(sys.argv[0])


def usage_of(text: str) -> str:
    """The lines of a tool's help that say how it is called."""
    return text[text.index("usage: ") :].partition("\n\n")[0]


class Words(argparse.ArgumentParser):
    """What reads the words of a command line. Where they are wrong, the reason is the first line, and then the usage."""

    def error(self, message: str) -> NoReturn:
        tell(f"{tool()}: {message}")
        self.print_usage(sys.stderr)
        sys.exit(1)
