"""A night in Python: the same as night.c. python3 night.py LIBRARY HOLDING CHANGE REFUSED"""
import ctypes
import sys

muiwash = ctypes.CDLL(sys.argv[1])


def lent(data):
    """A pointer and a length."""
    return ctypes.c_char_p(data), ctypes.c_size_t(len(data))


def call(name, count, *arguments):
    answer = (ctypes.c_uint64 * count)()
    function = getattr(muiwash, name)
    function.restype = None
    function(*arguments, answer)
    return list(answer)


def muiwash_room(holding, file):
    """How long a buffer is always enough for the new holding, as muiwash.h says it."""
    return len(holding) + len(file) + 16384


def muiwash_undo_room(holding, file):
    """The same for the undo."""
    return len(holding) + 2 * len(file)


def muiwash_back_room(file, undo):
    """The same for the undo of a file's undo."""
    return len(file) + len(undo)


def load(holding, file, undo_room):
    """The seven numbers, the new holding and the undo, both empty on a refusal."""
    out = ctypes.create_string_buffer(muiwash_room(holding, file))
    undo = ctypes.create_string_buffer(undo_room)
    answer = call('muiwash_load', 7, *lent(holding), *lent(file), out, ctypes.c_size_t(len(out)), undo, ctypes.c_size_t(len(undo)))
    return answer, out.raw.rstrip(b'\0'), undo.raw.rstrip(b'\0')


def show(what, numbers):
    print(f'{what}: ' + ','.join(map(str, numbers)))


holding, change, refused = (open(path, 'rb').read() for path in sys.argv[2:5])
show('the holding', call('muiwash_check_holding', 3, *lent(holding)))
answer, nothing, none = load(holding, refused, muiwash_undo_room(holding, refused))
show('refused', answer)
print(f'bytes left in the outputs: {len(nothing)} and {len(none)}')
answer, taken, undo = load(holding, change, muiwash_undo_room(holding, change))
show('taken', answer)
print(f'bytes of its undo, which is kept: {len(undo)}')
code, line, field, start, length = call('muiwash_find', 5, *lent(holding), ctypes.c_uint64(11), ctypes.c_uint64(40000102))
print('street 40000102:', holding[start:start + length].decode())
code, line, field, side, start, length = call('muiwash_in_force', 6, *lent(holding), *lent(change), ctypes.c_uint64(21), ctypes.c_uint64(130000001))
print(f"BLPU 130000001, in force in the {('holding', 'file')[side]}:", (holding, change)[side][start:start + length].decode())
code, line, field, start, length = call('muiwash_field', 5, *lent(holding), ctypes.c_uint64(2), ctypes.c_uint64(4))
print('line 2, field 4:', holding[start:start + length].decode())
answer, back, _ = load(taken, undo, muiwash_back_room(change, undo))
show('the undo, taken', answer)
print('handed back:', 'the old holding, byte for byte' if back == holding else 'NOT the old holding')
sys.exit(0 if back == holding else 1)
