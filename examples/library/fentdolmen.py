#!/usr/bin/env python3
"""A board in process for Python: `Board(path of libfentdolmen.so)`.

    fentdolmen.py LIBFENTDOLMEN.SO < lines      answers lines as am-dispatch does
"""
import ctypes
import os
import sys
import threading


class Handle(ctypes.Structure):
    """The struct of fentdolmen.h. All zero is closed."""

    _fields_ = [("is_open", ctypes.c_uint64), ("at", ctypes.c_void_p)]


class Board:
    """Answers lines, for the thread that made it."""

    def __init__(self, path: str) -> None:
        self.library, self.handle, self.thread = ctypes.CDLL(path), Handle(), threading.get_ident()
        at, size = ctypes.POINTER(Handle), ctypes.c_size_t
        self.library.fentdolmen_open.argtypes = [at, ctypes.c_uint64]
        self.library.fentdolmen_call.argtypes = [at, ctypes.c_char_p, size, ctypes.c_char_p, size]
        self.library.fentdolmen_read.argtypes = [at, size, ctypes.c_char_p, size]
        self.library.fentdolmen_close.argtypes = [at]
        self.library.fentdolmen_call.restype = self.library.fentdolmen_read.restype = size
        self.buffer = ctypes.create_string_buffer(65_536)
        if self.library.fentdolmen_open(self.handle, int.from_bytes(os.urandom(8), "little")):
            raise MemoryError

    def on_its_thread(self) -> None:
        if threading.get_ident() != self.thread:
            raise RuntimeError("another thread made this board")

    def ask(self, line: bytes) -> bytes:
        """The answer to a line, with its line feed."""
        self.on_its_thread()
        length = self.library.fentdolmen_call(self.handle, line, len(line), self.buffer, len(self.buffer))
        if length > len(self.buffer):
            self.buffer = ctypes.create_string_buffer(length)
            self.library.fentdolmen_read(self.handle, 0, self.buffer, length)
        return ctypes.string_at(self.buffer, length)

    def close(self) -> None:
        """Frees the board. A second time does nothing."""
        self.on_its_thread()
        self.library.fentdolmen_close(self.handle)


def main() -> None:
    board = Board(os.path.abspath(sys.argv[1]))
    try:
        for line in sys.stdin.buffer:
            sys.stdout.buffer.write(board.ask(line.removesuffix(b"\n")))
    finally:
        board.close()


if __name__ == "__main__":
    main()
