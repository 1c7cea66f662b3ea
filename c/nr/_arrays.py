"""Arrays of results: numpy's if it can be imported, else plain ones that refuse to be compared as a whole."""

from __future__ import annotations

import ctypes
import functools
import typing

if typing.TYPE_CHECKING:
    import numpy
    import numpy.typing

    # Numbers of 32 bits, and octets, in an array of one dimension or more.
    Numbers = numpy.typing.NDArray[numpy.uint32]
    Places = numpy.typing.NDArray[numpy.uint8]

COMPARED = "an array as a whole is not compared: compare its items, or install numpy, whose arrays compare item by item"


@functools.lru_cache(maxsize=None)
def numpy_or_none() -> typing.Any:
    """numpy, if it can be imported."""
    try:
        import numpy
    except ImportError:
        return None
    return numpy


class Plain:
    """What a plain array has beside its buffer: a shape, its items as lists, and no silent comparison."""

    _length_: int
    _type_: typing.Any

    def compared(self, other: object) -> typing.Any:
        """Refuses: without this an array would be equal to no number, and a rate of errors silently 0."""
        raise TypeError(COMPARED)

    __eq__ = __ne__ = __lt__ = __le__ = __gt__ = __ge__ = compared

    @property
    def shape(self) -> typing.Tuple[int, ...]:
        """How many items it has in each dimension."""
        return self._shape_and_item()[0]

    def tolist(self) -> typing.List[typing.Any]:
        """Its items as numbers, in lists of lists if it has several dimensions."""
        items: typing.Iterable[typing.Any] = self  # type: ignore[assignment]
        return [it.tolist() if isinstance(it, Plain) else it for it in items]

    def tobytes(self) -> bytes:
        """Its octets."""
        return bytes(self)  # type: ignore[call-overload,no-any-return]

    def __repr__(self) -> str:
        return f"<array of {' x '.join(map(str, self.shape))}>"

    def __reduce__(self) -> typing.Tuple[typing.Any, ...]:
        shape, item = self._shape_and_item()
        return _copied, (shape, issubclass(item, ctypes.c_ubyte), self.tobytes())

    def _shape_and_item(self) -> typing.Tuple[typing.Tuple[int, ...], typing.Any]:
        kind: typing.Any = type(self)
        found = []
        while issubclass(kind, Plain):
            found.append(kind._length_)
            kind = kind._type_
        return tuple(found), kind


@functools.lru_cache(maxsize=64)
def _kind(item: typing.Any, shape: typing.Tuple[int, ...]) -> typing.Any:
    """The type of plain arrays of a shape."""
    of_arrays: typing.Any = type(ctypes.Array)
    for length in reversed(shape):
        item = of_arrays("Array", (Plain, ctypes.Array), {"_type_": item, "_length_": length})
    return item


def _copied(shape: typing.Tuple[int, ...], is_octets: bool, octets: bytes) -> typing.Any:
    """What was pickled."""
    return _kind(ctypes.c_ubyte if is_octets else ctypes.c_uint32, shape).from_buffer_copy(octets)


def fresh(shape: typing.Tuple[int, ...], item: typing.Any = ctypes.c_uint32) -> typing.Tuple[typing.Any, int]:
    """An array of zeros, and the address of its first item."""
    numpy = numpy_or_none()
    if numpy is None:
        made = _kind(item, shape)()
        return made, ctypes.addressof(made)
    zeros = numpy.zeros(shape, item)
    return zeros, zeros.ctypes.data


def rates_of(after: typing.Any, count: int) -> typing.List[float]:
    """The block error rate after each of so many transmissions: which share of the blocks is not delivered by then."""
    numbers = after.tolist()
    late = [sum(1 for it in numbers if not 0 < it <= turn) for turn in range(1, count + 1)]
    return [it / len(numbers) if numbers else float("nan") for it in late]
