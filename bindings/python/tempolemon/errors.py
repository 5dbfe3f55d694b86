"""The refusals: an exception for each, below Error."""
from typing import Dict, Optional, Type


class Error(Exception):
    """A call was refused. docs/MANUAL.md says what causes the refusals 1 to 22, and what helps."""

    status = 0
    """The status of the C call: the number of the refusal, or one above 100; 0 of Zero, Raced and Full."""
    group: Optional[int] = None
    """Of OverLimit: the lowest group whose limit has no room."""

    def __init_subclass__(cls, status: int = 0) -> None:
        cls.status = status

    def __init__(self) -> None:
        super().__init__(f"refused {self.status}: {self.__doc__}" if self.status else self.__doc__)


class NoParent(Error, status=1):
    """the parent group is not there"""


class Exists(Error, status=2):
    """the group is there already"""


class BadName(Error, status=3):
    """the path is malformed or that of the root"""


class TreeFull(Error, status=4):
    """there is no room for one more group"""


class TooDeep(Error, status=5):
    """the path has more than 8 names"""


class NoGroup(Error, status=6):
    """the group is not there"""


class HasChildren(Error, status=7):
    """the group has children"""


class Busy(Error, status=8):
    """the group still has pages"""


class PinsFull(Error, status=9):
    """the CPU holds too many references"""


class NoFile(Error, status=10):
    """the group has no such file"""


class ReadOnly(Error, status=11):
    """the file cannot be written"""


class BadLimit(Error, status=12):
    """the text is no limit"""


class BadNumber(Error, status=13):
    """the limit is too great a number"""


class BadConfig(Error, status=14):
    """a size is out of its range"""


class OverLimit(Error, status=15):
    """the charge goes over the limit of a group"""


class NoFrames(Error, status=16):
    """the zone has no free block that is great enough"""


class Again(Error, status=17):
    """fewer pages were freed than asked"""


class Killed(Error, status=18):
    """the group was killed"""


class BadOrder(Error, status=19):
    """the order is above 10"""


class NotKept(Error, status=20):
    """the frame is not the head of a kept unit"""


class NotPinned(Error, status=21):
    """the CPU holds no reference on the frame"""


class WriteOnly(Error, status=22):
    """the file cannot be read"""


class NoMemory(Error, status=101):
    """malloc or realloc returned null"""


class SmallBuffer(Error, status=103):
    """the buffer is shorter than the text (the calls of this package then take a longer one)"""


class NotLive(Error, status=104):
    """the zone has ended, or the CPU was returned"""


class BadCpu(Error, status=106):
    """the zone has no CPU of this number"""


class BadFrame(Error, status=107):
    """the zone has no frame of this number"""


class BadGroup(Error, status=108):
    """no group has this number"""


class CpuOut(Error, status=110):
    """another handle has this CPU"""


class CpusOut(Error, status=111):
    """a CPU isn't returned, so the zone goes on"""


class Lost(Error, status=112):
    """a CPU wasn't there at the end"""


class InUse(Error, status=113):
    """another thread is inside a call on this CPU"""


class BadVersion(Error, status=115):
    """the library is of another version than this package"""


class Zero(Error):
    """the frame has no reference"""


class Raced(Error):
    """the references changed meanwhile"""


class Full(Error):
    """the frame has 255 references"""


BY_STATUS: Dict[int, Type[Error]] = {it.status: it for it in Error.__subclasses__() if it.status}


def error_of(status: int, number: int = 0) -> Error:
    """The exception of a status, which isn't DONE, with the number that the call gave."""
    error = BY_STATUS[status]()
    if isinstance(error, OverLimit):
        error.group = number
    return error
