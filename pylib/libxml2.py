"""libxml2's library, by ctypes; an import of this ends in OSError where it isn't here."""
import ctypes

LIBRARY = ctypes.CDLL("libxml2.so.2")
NOERROR, NOWARNING, NONET, NOCDATA, HUGE = 1 << 5, 1 << 6, 1 << 11, 1 << 14, 1 << 19
QUIET = NOERROR | NOWARNING | NONET | HUGE
OPTIONS = QUIET | NOCDATA
POINTER, TEXT, WHOLE, LONG = ctypes.c_void_p, ctypes.c_char_p, ctypes.c_int, ctypes.c_long


def declare(calls):
    """Tells the library the types of calls: of each its name, what it answers, and what it is given."""
    for name, answer, *words in calls:
        call = getattr(LIBRARY, name)
        call.restype, call.argtypes = answer, words


declare([
    ("xmlReadMemory", POINTER, TEXT, WHOLE, TEXT, TEXT, WHOLE),
    ("xmlReadFile", POINTER, TEXT, TEXT, WHOLE),
    ("xmlFreeDoc", None, POINTER),
])  # fmt: skip
# That something is refused is told by the answer, and need not be printed.
SILENCE = ctypes.CFUNCTYPE(None, POINTER, POINTER)(lambda _context, _error: None)
LIBRARY.xmlSetStructuredErrorFunc(None, SILENCE)
LIBRARY.xmlSetGenericErrorFunc(None, SILENCE)
