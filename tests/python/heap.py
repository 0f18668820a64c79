"""The heap of this process."""
import ctypes


class Memory(ctypes.Structure):
    """struct mallinfo2"""

    _fields_ = [(name, ctypes.c_size_t) for name in (
        "arena", "ordblks", "smblks", "hblks", "hblkhd", "usmblks", "fsmblks", "uordblks", "fordblks", "keepcost",
    )]


mallinfo = getattr(ctypes.CDLL(None), "mallinfo2", None)
if mallinfo is not None:
    mallinfo.restype = Memory


def allocated():
    """The bytes that malloc has given out."""
    memory = mallinfo() if mallinfo is not None else Memory()
    return memory.uordblks + memory.hblkhd
