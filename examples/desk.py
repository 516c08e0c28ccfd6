"""What desk.c does, by ctypes: desk.py ./libtozbierdu.so TABLE. The shared object is made of the archive:

gcc -shared -o libtozbierdu.so -Wl,--whole-archive libtozbierdu.a -Wl,--no-whole-archive
"""
import ctypes
import sys

if len(sys.argv) != 3:
    print("usage: desk.py LIBRARY TABLE", file=sys.stderr)
    sys.exit(2)
try:
    library = ctypes.CDLL(sys.argv[1])
    text = open(sys.argv[2], "rb").read()
except OSError as error:
    print(error, file=sys.stderr)
    sys.exit(2)


def call(name, *lent):  # a number goes as it is, a column as its address and its length
    given = [y for x in lent for y in ([ctypes.c_uint64(x)] if isinstance(x, int) else [x, ctypes.c_size_t(len(x))])]
    function = getattr(library, "tozbierdu_" + name)
    function.restype = ctypes.c_uint64
    result = function(*given)
    return result if result >> 32 == 0 else sys.exit(f"{name}: refused {result >> 32} {result & 0xFFFFFFFF}")


def column(*places):
    return (ctypes.c_uint64 * len(places))(*places)


def cut(columns, *lengths):
    return [(ctypes.c_uint64 * k).from_buffer(x) for x, k in zip(columns, lengths)]


table, header, counts = [column(*[0] * k) for k in (4096, 4096, 4096, 8192, 16384)], column(0, 0, 0, 0), column(0, 0)
call("read_table", (ctypes.c_uint8 * len(text))(*text), *table, header)
n, measure, lines, listed = header
answers, index = [column(*[0] * n) for _ in range(4)], [column(*[0] * k) for k in (2 * n, 16384)]
used = cut(table, lines, lines, lines, 2 * lines, listed)
call("settle", measure, n, *used, *answers)
if n > 1:
    print("part", n - 2, "at", answers[0][n - 2])
if n > 0:
    needed = column(*range(max(n - 3, 0), n - 1))
    call("index_table", n, *used, *index)
    call("append", measure, n, *table, lines, listed, *answers, *index, n - 1, 50, 0, needed, counts)
    used = cut(table, counts[0], counts[0], counts[0], 2 * counts[0], counts[1])
    if answers[1][n - 1] == 0:
        print("part", n - 1, "is unmade")
    else:
        room = column(*[0] * 16384)
        print(f"part {n - 1} at {answers[0][n - 1]}, bill:", *room[: call("bill", measure, n, *used, *answers, n - 1, room)])
page = (ctypes.c_uint8 * 65536)()
print(bytes(page[: call("write_table", measure, n, *used, page)]).decode(), end="")
