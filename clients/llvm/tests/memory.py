"""Memory of a run: pieces at addresses of their own."""
from __future__ import annotations

from meaning import Number, from_bytes, to_bytes


class Outside(Exception):
    """An access outside of all pieces."""


class Memory:
    """Pieces of bytes, far from one another."""

    def __init__(self):
        self.pieces: list[tuple[int, bytearray]] = []
        self.free = 0x10000

    def add(self, content: bytes) -> int:
        """A new piece: its address."""
        address = self.free
        self.pieces.append((address, bytearray(content)))
        self.free += (len(content) // 0x10000 + 2) * 0x10000
        return address

    def piece(self, address: int, size: int) -> tuple[bytearray, int]:
        """The piece of an access, and where in it."""
        for start, piece in self.pieces:
            if start <= address and address + size <= start + len(piece):
                return piece, address - start
        raise Outside(f"{size} bytes at {address:#x}")

    def load(self, address: int, size: int, of: str) -> Number:
        """The number at an address."""
        piece, at = self.piece(address, size)
        return from_bytes(bytes(piece[at : at + size]), of)

    def store(self, address: int, size: int, number: Number, of: str) -> None:
        """Writes a number to an address."""
        piece, at = self.piece(address, size)
        piece[at : at + size] = to_bytes(number, of)
