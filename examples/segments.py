"""segments.py LIBRARY < FILE: the lines of a network file grouped by the breaker that trips for them, and the total from it."""
import argparse
import ctypes
import sys

usage = argparse.ArgumentParser(usage="python3 segments.py LIBRARY < FILE, as python3 examples/segments.py target/libjubaxendi.so < examples/k.net")
usage.add_argument("library")
try:
    segments = ctypes.CDLL(usage.parse_args().library).jubaxendi_segments
except (OSError, AttributeError) as problem:
    usage.error(problem)
numbers = ctypes.POINTER(ctypes.c_uint64)
segments.restype = ctypes.c_uint64
segments.argtypes = [ctypes.c_char_p, ctypes.c_size_t, numbers, ctypes.c_size_t, numbers]

file = sys.stdin.buffer.read()
table = (ctypes.c_uint64 * 7680)()
answer = (ctypes.c_uint64 * 8)()
refusal = segments(file, len(file), table, 7680, answer)
if refusal:
    print(f"refused: {refusal // 65536}, record {refusal % 65536}")
else:
    rows = [table[5 * i:5 * i + 5] for i in range(answer[0])]
    for line, end, weights, customers, amount in rows:
        print(f"breaker at line {line}, end {end}: weights {weights} x customers {customers} = {amount}")
    print(f"total {sum(row[4] for row in rows)}")
