"""search.py LIBRARY < FILE: which ends of the lines of a network file should get a breaker."""
import argparse
import ctypes
import sys

usage = argparse.ArgumentParser(usage="python3 search.py LIBRARY < FILE, as python3 examples/search.py target/libjubaxendi.so < examples/k.net")
usage.add_argument("library")
try:
    search = ctypes.CDLL(usage.parse_args().library).jubaxendi_search
except (OSError, AttributeError) as problem:
    usage.error(problem)
numbers = ctypes.POINTER(ctypes.c_uint64)
search.restype = ctypes.c_uint64
search.argtypes = [ctypes.c_char_p, ctypes.c_size_t, numbers, ctypes.c_size_t, numbers]

file = sys.stdin.buffer.read()
members = (ctypes.c_uint64 * 16)()
answer = (ctypes.c_uint64 * 8)()
refusal = search(file, len(file), members, 16, answer)
if refusal:
    print(f"refused: {refusal // 65536}, record {refusal % 65536}")
else:
    finished, count, total, visits = answer[:4]
    places = [record.split(",") for record in file.decode().split("\n") if record.startswith("P")]
    ends = [f"line {places[k - 1][1]} end {places[k - 1][2]} (place {k})" for k in members[:count]]
    print(f"{'finished' if finished else 'spent'} after {visits} visits: {', '.join(ends) or 'no breaker'}, total {total}")
