"""A software ARINC 429 channel module, proved: ctypes over libnqabelihu.so, standard library only.

    import nqabelihu

    module = nqabelihu.Module(1)
    module.write_setting(1, nqabelihu.SETTING_RECEIVER, 1)
    module.arrive(1, 0x6000012B)                  # 2, nqabelihu.OUTCOME_APPENDED
    entry = module.read_receive_fifo(1)           # Entry(status=0, word=0x6000012B, stamp=0)
    oct(nqabelihu.label(entry.word))              # 0o324

A call has the name of its op, and takes the channel (calls on a channel) and what docs/CALLS.md lists; read_register and write_register take an
address of docs/REGISTERS.md. It gives nothing, a number, or a tuple; where it is refused it raises Refused, which has the number and its text.
`perform` gives a refusal as an answer.
"""
import collections
import ctypes
import pathlib

VERSION = "@VERSION@"

# name, number, text, and for an op how many values its answer has
TABLES = (
@TABLES@
)
globals().update((name, number) for name, number, text, values in TABLES)

Answer = collections.namedtuple("Answer", "number values")
Entry = collections.namedtuple("Entry", "status word stamp")
Output = collections.namedtuple("Output", "form x y z")
Async = collections.namedtuple("Async", "waiting word")
Counts = collections.namedtuple("Counts", "receive_accepted receive_read receive_cleared receive_overwritten transmit_accepted transmit_sent transmit_cleared")

READ_SETTING = 32  # + the setting: the op that reads it
MODULE_WIDE = 32  # ops below name no channel
SEVERAL = {2: Async, 3: Entry, 4: Output, 7: Counts}  # answers of several values

_library = ctypes.CDLL(str(pathlib.Path(__file__).resolve().parent.parent / "libnqabelihu.so"))
_words = ctypes.POINTER(ctypes.c_uint32)
_library.nqabelihu_words.restype = ctypes.c_size_t
_library.nqabelihu_words.argtypes = [ctypes.c_uint32]
_library.nqabelihu_perform.restype = ctypes.c_uint32
_library.nqabelihu_perform.argtypes = [_words, ctypes.c_size_t, _words, ctypes.c_size_t] + 4 * [ctypes.c_uint32]


def _checked(*numbers):
    """ctypes cuts a number to 32 bits and says nothing: a number that does not fit is an error here."""
    for number in numbers:
        if not isinstance(number, int) or not 0 <= number < 2**32:
            raise ValueError("%r is no number of 32 bits" % (number,))
    return numbers


def _text(prefix, number):
    return next((text for name, n, text, values in TABLES if n == number and name.startswith(prefix)), "unknown")


def refusal_text(number):
    return "done" if number == 0 else _text("REFUSED_", number)


def outcome_text(number):
    return _text("OUTCOME_", number)


def form_text(number):
    return _text("FORM_", number)


def condition_text(number):
    return _text("CONDITION_", number)


def setting_text(number):
    return _text("SETTING_", number)


def op_text(op):
    setting = _text("SETTING_", op), _text("SETTING_", op - READ_SETTING)
    return "write " + setting[0] if setting[0] != "unknown" else "read " + setting[1] if setting[1] != "unknown" else _text("OP_", op)


def values_of(op):
    """How many values the answer of an op has; None for an op that is no call."""
    for name, number, text, values in TABLES:
        if name.startswith("OP_") and number == op:
            return values
        if name.startswith("SETTING_") and op in (number, number + READ_SETTING):
            return int(op != number)
    return None


def words(count):
    return _library.nqabelihu_words(*_checked(count))


class Refused(Exception):
    def __init__(self, op, number):
        super().__init__("%s: refused with %d, %s" % (op_text(op), number, refusal_text(number)))
        self.number = number


class Module:
    """A module with memory of its own: powered up, or all zeros. `perform` gives refusals as answers; the calls by name raise them."""

    def __init__(self, count, power_up=True):
        self.memory = (ctypes.c_uint32 * words(count))()
        self._values = (ctypes.c_uint32 * 7)()
        if power_up:
            self.power_up(count)

    def perform(self, op, channel=0, a=0, b=0):
        number = _library.nqabelihu_perform(self.memory, len(self.memory), self._values, 7, *_checked(op, channel, a, b))
        return Answer(number, tuple(self._values[: values_of(op) or 0]))

    def _done(self, op, channel, a=0, b=0):
        number, values = self.perform(op, channel, a, b)
        if number != 0:
            raise Refused(op, number)
        return SEVERAL[len(values)](*values) if len(values) > 1 else values[0] if values else None

    def write_setting(self, channel, setting, value):
        self._done(setting if setting_text(setting) != "unknown" else 0, channel, value)

    def read_setting(self, channel, setting):
        return self._done(setting + READ_SETTING if setting_text(setting) != "unknown" else 0, channel)

    def read_register(self, address):
        return self._done(OP_READ_REGISTER, 0, address)

    def write_register(self, address, value):
        """The mask of the channels that refused where the register takes a channel mask (trigger, pause, stop), else 0."""
        return self._done(OP_WRITE_REGISTER, 0, address, value)


def _call(op):
    def wide(self, a=0):
        return self._done(op, 0, a)

    def on_channel(self, channel, a=0, b=0):
        return self._done(op, channel, a, b)

    return wide if op < MODULE_WIDE else on_channel


def _field(name, arguments):
    function = getattr(_library, "nqabelihu_" + name)
    function.restype = ctypes.c_uint32
    function.argtypes = arguments * [ctypes.c_uint32]
    return lambda *numbers: function(*_checked(*numbers))


for _name, _number, _, _values in TABLES:
    if _name.startswith("OP_") and not hasattr(Module, _name[3:].lower()):
        setattr(Module, _name[3:].lower(), _call(_number))
for _name in ("label", "low_byte", "sdi", "data_bits", "sign_status", "index_of_word", "with_odd_parity"):
    globals()[_name] = _field(_name, 1)
index_of_label = _field("index_of_label", 2)
version = _field("version", 0)
