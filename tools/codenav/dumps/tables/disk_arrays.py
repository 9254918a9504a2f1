"""Whole numbers on disk, for what there is of each range and each place: appended in order and read
in slices, as an array in memory is, and sorted. A few blocks of a column are in memory at a time.
"""

import heapq
import os
import tempfile
from array import array
from typing import IO, Iterable, Iterator, Optional, Sequence, Union, overload

BLOCK = 4096
MOST_BLOCKS = 64
RUN = 1 << 18


class Column(Sequence[int]):
    """Numbers of a form of `array` in a file that has no name, which is made for the first full
    block. It's read by place and not by the file's position, so processes may share it."""

    def __init__(self, form: str) -> None:
        self.form = form
        self.file: Optional[IO[bytes]] = None
        self.bytes = array(form).itemsize
        self.written = 0
        self.tail = array(form)
        self.blocks: dict[int, array[int]] = {}

    def __del__(self) -> None:
        if self.file is not None:
            self.file.close()

    def descriptor(self) -> int:
        """The descriptor of the file."""
        if self.file is None:
            self.file = tempfile.TemporaryFile(buffering=0)
        return self.file.fileno()

    def __len__(self) -> int:
        return self.written + len(self.tail)

    def __iter__(self) -> Iterator[int]:
        for at in range(0, len(self), BLOCK):
            yield from self[at : at + BLOCK]

    @overload
    def __getitem__(self, at: int) -> int:
        ...

    @overload
    def __getitem__(self, at: slice) -> "array[int]":
        ...

    def __getitem__(self, at: Union[int, slice]) -> "Union[int, array[int]]":
        if isinstance(at, slice):
            first, last, _ = at.indices(len(self))
            return self.between(first, last)
        number, place = divmod(at, BLOCK)
        block = self.blocks.get(number)
        if block is None or place >= len(block):
            if len(self.blocks) >= MOST_BLOCKS:
                self.blocks.clear()
            block = self.blocks[number] = self.between(number * BLOCK, (number + 1) * BLOCK)
        return block[place]

    def between(self, first: int, last: int) -> "array[int]":
        """The numbers from one place to before another, as far as there are any."""
        found = array(self.form)
        if first < self.written:
            count = min(last, self.written) - first
            found.frombytes(os.pread(self.descriptor(), count * self.bytes, first * self.bytes))
        if last > self.written:
            found += self.tail[max(first - self.written, 0) : last - self.written]
        return found

    def __setitem__(self, at: int, number: int) -> None:
        self.blocks.pop(at // BLOCK, None)
        if at >= self.written:
            self.tail[at - self.written] = number
            return
        os.pwrite(self.descriptor(), array(self.form, [number]), at * self.bytes)

    def append(self, number: int, /) -> None:
        """Adds a number."""
        self.tail.append(number)
        if len(self.tail) >= BLOCK:
            self.put_tail()

    def extend(self, numbers: Iterable[int], /) -> None:
        """Adds numbers."""
        self.tail.extend(numbers)
        if len(self.tail) >= BLOCK:
            self.put_tail()

    def put_tail(self) -> None:
        """Writes what isn't yet in the file."""
        with memoryview(self.tail).cast("B") as rest:
            done = 0
            while done < len(rest):
                done += os.pwrite(self.descriptor(), rest[done:], self.written * self.bytes + done)
        self.written += len(self.tail)
        self.tail = array(self.form)


Numbers = Union["array[int]", Column]


class Sorted:
    """Numbers that are read in rising order: sorted in runs, which are merged."""

    def __init__(self) -> None:
        self.runs: list[Column] = []
        self.run = array("q")

    def extend(self, numbers: Iterable[int]) -> None:
        """Adds numbers."""
        self.run.extend(numbers)
        if len(self.run) >= RUN:
            self.put_run()

    def put_run(self) -> None:
        """Writes a run."""
        column = Column("q")
        column.extend(sorted(self.run))
        self.runs.append(column)
        self.run = array("q")

    def __iter__(self) -> Iterator[int]:
        return iter(heapq.merge(*self.runs, sorted(self.run)))
