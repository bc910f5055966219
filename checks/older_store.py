"""Makes a store of the older format out of one of the newer: its checkpoints have the format 1, and its pages 4,096 bytes.

docs/FORMATS.md tells both formats; nothing else differs between them. No program that is built today writes the older one.
"""
import pathlib
import sys

TOP = pathlib.Path(__file__).resolve().parent.parent
sys.path.insert(0, str(TOP / "tools"))
import store_files

OLDER = 1
FORMAT_AT = 13  # in a log: behind the gate, the sequence and the length of the checkpoint


class Larger(Exception):
    """What a page of the older format has no room for."""


def older_page(data):
    """A page of the older format, of one of the newer."""
    size = store_files.SIZES[OLDER]
    rest = data[size:]
    if rest.strip(b"\0"):
        raise Larger("a page has more bytes than a page of the older format")
    return data[:2] + bytes([OLDER]) + data[3:size].ljust(size - 3, b"\0")


def make_older(folder, repos=None):
    """Makes the repositories of a store older: all of them, or those of these numbers."""
    folder = pathlib.Path(folder)
    for number in range(store_files.REPOSITORIES) if repos is None else repos:
        faults = []
        found = store_files.Repository(folder, number, faults.append)
        if faults:
            raise faults[0]
        if found.state:
            older_pages(folder, found)
        for log in filter(None, found.logs):
            path = folder / store_files.file_name(number, log.disk)
            data = bytearray(path.read_bytes())
            data[FORMAT_AT] = OLDER
            path.write_bytes(data)


def older_pages(folder, repo):
    path, size = folder / store_files.file_name(repo.number, store_files.PAGE_DISK), store_files.SIZES[OLDER]
    newer, older = path.read_bytes() if path.exists() else b"", bytearray()
    for page, side in sorted(repo.state.sides.items()):
        at, to = store_files.page_place(page, side), store_files.page_place(page, side, OLDER)
        older += bytes(to - len(older))
        older += older_page(newer[at : at + store_files.PAGE_BYTES])
    path.write_bytes(older)


def formats(folder, repos):
    """The format of the checkpoint that counts in each of so many repositories; None where no log counts."""
    found = [store_files.counting(store_files.logs_of(pathlib.Path(folder), number, lambda wrong: None)[0]) for number in range(repos)]
    return [log.head.data[0] if log else None for log in found]
