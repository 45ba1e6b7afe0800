"""From C to scheduling problems: clang's LLVM IR is read, and its innermost loops become problems for modsched."""
import sys


def what_lacks(fault: ImportError) -> str:
    """What has to be installed, where an import of this package fails."""
    needed = {"llvmlite": "python3-llvmlite is not installed", "tomllib": "Python 3.11 or later is needed"}
    return needed.get((fault.name or "").partition(".")[0], str(fault))


def is_written(text: str, command: str) -> bool:
    """Writes a text to standard output, and answers whether that went well. Where it did not, standard error tells why."""
    try:
        # (not by print, which says nothing where the output is closed; a path may have other bytes than UTF-8)
        with open(1, "w", encoding="utf-8", errors="surrogateescape", closefd=False) as to:
            to.write(text)
    except OSError as fault:
        print(f"{command}: cannot write: {fault.strerror}", file=sys.stderr)
        return False
    return True
