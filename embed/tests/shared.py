#!/usr/bin/env python3
"""Uses the shared object from Python: shared.py LIBRARY FILE. It makes a store in FILE, changes it, opens it again,
and reads all that it has."""
import ctypes as c
import sys

u8, u64, size_t, i32 = c.c_char_p, c.c_uint64, c.c_size_t, c.c_int32
passed = failed = 0


def told(what, found, wanted):
    global passed, failed
    if found == wanted:
        passed += 1
    else:
        failed += 1
        print(f'shared: failed: {what}: {found!r}, not {wanted!r}')


lib = c.CDLL(sys.argv[1])
lib.costore_word.restype = c.c_char_p
lib.costore_version.restype = c.c_uint32
lib.costore_need.argtypes = [u64, u64, u64, u64, c.POINTER(u64), c.POINTER(u64)]
lib.costore_file_format.argtypes = [c.c_void_p, c.c_char_p, u64, u64, u64, u64]
lib.costore_file_open.argtypes = [c.c_void_p, c.c_char_p, u64, u64]
lib.costore_file_put.argtypes = [c.c_void_p, u8, size_t, u8, size_t]
lib.costore_file_get.argtypes = [c.c_void_p, u8, size_t, c.c_void_p, size_t, c.POINTER(u64)]
lib.costore_file_next.argtypes = [c.c_void_p, u8, size_t, c.c_void_p, size_t, c.POINTER(u64), c.POINTER(u64)]
lib.costore_file_keep.argtypes = lib.costore_file_close.argtypes = [c.c_void_p]
lib.costore_file_close.restype = None


def word(code):
    """The word of an answer."""
    return lib.costore_word(code).decode()


def get(file, name):
    """The word of a get, and the object."""
    out, size = c.create_string_buffer(1000), u64()
    code = lib.costore_file_get(file, name, len(name), out, len(out), size)
    return word(code), out.raw[:size.value]


def names(file):
    """All names with the sizes of their objects."""
    out, length, size, name, found = c.create_string_buffer(63), u64(), u64(), b'', []
    while lib.costore_file_next(file, name, len(name), out, len(out), length, size) == 0:
        name = out.raw[:length.value]
        found.append((name, size.value))
    return found


def main(path):
    room, log = u64(), u64()
    # As much as costore_file_t can take.
    file = c.create_string_buffer(1024)
    objects = {b'n%d' % i: bytes([i]) * (i * 7) for i in range(20)}
    told('version', lib.costore_version(), 100)
    told('need', word(lib.costore_need(9, 64, 1 << 16, 1 << 10, room, log)), 'done')
    told('format', word(lib.costore_file_format(file, path, 9, 64, room, log.value * 4)), 'done')
    for name, body in objects.items():
        told('put', word(lib.costore_file_put(file, name, len(name), body, len(body))) in ('done', 'kept'), True)
    told('keep', word(lib.costore_file_keep(file)), 'kept')
    told('format again', word(lib.costore_file_format(c.create_string_buffer(1024), path, 9, 64, room, log)), 'locked')
    lib.costore_file_close(file)
    told('get, closed', get(file, b'n1'), ('broken', b''))
    told('open', word(lib.costore_file_open(file, path, room, log)), 'done')
    for name, body in objects.items():
        told('get', get(file, name), ('done', body))
    told('get, missing', get(file, b'none'), ('missing', b''))
    told('get, no name', get(file, b'a b'), ('bad-name', b''))
    told('names', names(file), sorted((name, len(body)) for name, body in objects.items()))
    lib.costore_file_close(file)


main(sys.argv[2].encode())
print(f'{passed} passed, {failed} failed')
sys.exit(failed != 0)
