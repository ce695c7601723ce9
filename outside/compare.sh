#!/bin/sh
# Random bodies against the codec of python3-yenc: what the program encodes is decoded there to the same bytes, and what is
# encoded there is decoded by the program to the same bytes. `outside/compare.sh 1000000` tries a million bodies; 400 by default.
count=${1:-400}
check=outside/compare
. outside/begin

/usr/bin/python3 -c 'import _yenc' 2>/dev/null || { echo "$check: skipped, python3-yenc isn't installed"; exit 0; }
cat >compare.py <<'END'
import _yenc, multiprocessing, os, random, re, subprocess, sys, zlib

PROGRAM, COUNT = sys.argv[1], int(sys.argv[2])
# bytes whose spelling is an escape, or which stand for a dot, a tab or a space
CRITICAL = bytes([214, 224, 227, 19, 4, 223, 246])


def content_of(chance):
    size = chance.choice([0, 1, 2, 3, chance.randrange(300), chance.randrange(5000)])
    if chance.random() < 0.3:
        return bytes(chance.choice(CRITICAL) for _ in range(size))
    return chance.randbytes(size)


def run(words):
    done = subprocess.run([PROGRAM, *words], capture_output=True)
    return done.stdout if done.returncode == 0 else None


def is_same_there(path, content, chance):
    """What the program encodes is decoded by the other codec to the same bytes, and the lines are as long as was asked."""
    size = max(1, chance.choice([len(content), len(content) // 3 + 1]))
    parts = max(1, -(-len(content) // size))
    line, bytes_of = chance.choice([128, chance.randrange(64, 998)]), b""
    for part in range(1, parts + 1):
        text = run(["encode", "--input", path, "--line", str(line), "--part-size", str(size), "--part", str(part)])
        if text is None:
            return False
        lines = text.split(b"\r\n")[:-1]
        data = lines[2 if parts > 1 else 1 : -1]
        if any(not line <= len(it) <= line + 1 for it in data[:-1]):
            return False
        piece = _yenc.decode_string(b"\r\n".join(data), 0xFFFFFFFF, 0)[0]
        if int(re.search(rb"crc32=([0-9a-f]{8})$", lines[-1])[1], 16) != zlib.crc32(piece):
            return False
        bytes_of += piece
    return bytes_of == content


def is_same_here(path, content):
    """What the other codec encodes is decoded by the program to the same bytes."""
    data = _yenc.encode_string(content, 0xFFFFFFFF, 0)[0]
    with open(path, "wb") as file:
        file.write(b"=ybegin line=128 size=%d name=a\r\n" % len(content))
        file.write(data + (b"\r\n" if data and not data.endswith(b"\r\n") else b""))
        file.write(b"=yend size=%d crc32=%08x\r\n" % (len(content), zlib.crc32(content)))
    return run(["decode", "--input", path]) == content


def differs(seed):
    chance = random.Random(seed)
    content, path = content_of(chance), f"body{os.getpid()}"
    with open(path, "wb") as file:
        file.write(content)
    return None if is_same_there(path, content, chance) and is_same_here(path, content) else seed


def main():
    first = random.randrange(1 << 40)
    with multiprocessing.Pool() as pool:
        for seed in pool.imap_unordered(differs, range(first, first + COUNT), 50):
            if seed is not None:
                sys.exit(f"another reading of the random body of seed {seed}")


main()
END
/usr/bin/python3 compare.py "$program" "$count" || complain "python3-yenc and the program differ"
[ $status -eq 0 ] && echo "$check: $count random bodies, no difference from python3-yenc"
exit $status
