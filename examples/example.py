"""Readings from Python: the library alone, whose calls are written with the interface's number, here 1.

    python3 example.py lib/libgrain.so.1
"""
import sys
from ctypes import CDLL, Structure, c_char_p, c_float, c_uint32


class Value(Structure):
    _fields_ = [("accepted", c_uint32), ("number", c_uint32), ("hundredths", c_uint32)]


grain = CDLL(sys.argv[1] if len(sys.argv) > 1 else "libgrain.so.1")
grain.grain_reading_1.argtypes, grain.grain_reading_1.restype = [c_float], Value
grain.grain_message_1.argtypes, grain.grain_message_1.restype = [c_uint32], c_char_p
grain.grain_version.restype = c_char_p

print("grain", grain.grain_version().decode())
for percent in (13.545, 100.01):
    value = grain.grain_reading_1(percent)
    said = f"{value.hundredths} hundredths" if value.accepted else grain.grain_message_1(value.number).decode()
    print(f"{percent}: {said}")
