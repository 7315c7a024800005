"""For the test: the inputs whose pages are opened, by name."""
import os
import random

LIMIT = 65536
HOSTILE = [b"</script><script>alert(1)</script>", b"<img src=x onerror=alert(1)>", b"\"'><svg/onload=alert(1)>", b"<!-- <script>", b"&lt;b&gt; &amp;",
           b"@output@", b"\x00\x01\x1b[31m", "größer\u2028 end".encode(), bytes(range(128, 256)), b"\\x41 \\u0041", b"1011\r", b"$(id) `id` %s"]


def some_line(source, stations, density, tail=b""):
    return bytes(source.choices(b"01", (1 - density, density), k=stations)) + tail + b"\n"


def some_cycles(source, first, density, count):
    stations = int(first.split()[1])
    tails = (b" 0", b" 1") if first.startswith(b"B") else (b"",)
    return first + b"".join(some_line(source, stations, density, source.choice(tails)) for _ in range(count))


def longest_input(first, line):
    """As many cycle lines as fit into the longest input that is served."""
    data, size = [first], len(first)
    while size <= LIMIT:
        data.append(line())
        size += len(data[-1])
    return b"".join(data[:-1])


def short_cases(examples):
    source = random.Random(1)
    for name in sorted(os.listdir(examples)):
        if name.endswith(".in"):
            with open(os.path.join(examples, name), "rb") as file:
                yield name[:-3], file.read()
    for first in (b"P 1 1\n", b"T 2 1\n", b"P 8 8\n", b"P 17 3\n", b"P 32 5\n", b"S 33 2\n", b"P 65 8\n", b"T 256 1\n", b"S 257 1\n"):
        yield "stations-" + first.split()[1].decode(), some_cycles(source, first, 0.3, 40)
    for stations in (1, 12, 40, 200, 300):
        yield f"bus-{stations}", some_cycles(source, b"B %d 1\n" % stations, 0.4, 60)
    yield "bus-unacknowledged", b"B 4 1\n" + b"1111 0\n" * 20
    yield from {"refused-1": b"S 1025 1\n", "refused-2": b"T 6 1\n01\n", "refused-3": b"P 3 4\n101\n", "refused-11": b"P 04 2\n1011\n"}.items()
    yield from {"refused-12": b"P 4 2\n" + b"1011\n" * 14000, "empty": b"", "no-cycles": b"P 4 2\n"}.items()
    yield "refused-5-8-9", b"B 3 1\n101 1\n10 1\n101x1\n1012 1\n1a1 1\n101 x\n\n101 0\n110 1"
    yield "refused-grid", b"P 40 3\n" + (b"1" * 40 + b"\n" + b"1" * 39 + b"x\n" + b"0" * 40 + b"\n" + b"01" * 19 + b"\n") * 4
    yield "refused-between", b"P 6 1\n" + b"111111\n11\n11111x\n" * 12
    yield "hostile-cycles", b"P 4 2\n" + b"".join(text + b"\n1101\n" + (text + b"0000")[:4] + b"\n" for text in HOSTILE)
    yield "hostile-bus", b"B 2 1\n" + b"".join(b"11 " + bytes([byte]) + b"\n" for byte in range(256) if byte != 10)
    for number, text in enumerate(HOSTILE):
        yield f"hostile-first-{number}", text + b"\n1101\n"
    yield "long-line", b"P 4 2\n1111\n" + b"10" * 30000 + b"\n0011\n"


def long_cases():
    source = random.Random(2)
    yield "wide", some_cycles(source, b"P 1024 8\n", 0.6, 63)
    yield "wide-tree", b"T 1024 1\n" + b"".join(b"1" * 1024 + b"\n" for _ in range(63))
    for first in (b"T 8 1\n", b"P 32 8\n", b"P 64 8\n", b"S 1 1\n"):
        stations = int(first.split()[1])
        yield f"long-{stations}", longest_input(first, lambda: some_line(source, stations, 0.5))
    yield "long-refused", longest_input(b"S 9 3\n", lambda: b"\n")
