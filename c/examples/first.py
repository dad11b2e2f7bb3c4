# Calls the shared library from Python: prints -2345 and None. The flag is TORKETTLE_SKIP_ZEROES.
import ctypes

parse = ctypes.CDLL("libtorkettle.so.0.1").torkettle_0_1_parse_i64
parse.argtypes = ctypes.c_char_p, ctypes.c_size_t, ctypes.c_uint, ctypes.POINTER(ctypes.c_int64)


def number(text):
    value = ctypes.c_int64()
    return value.value if parse(text, len(text), 1, ctypes.byref(value)) == 0 else None


print(number(b"-2345"), number(b"23x"))
