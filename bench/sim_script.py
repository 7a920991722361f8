#!/usr/bin/env python3
"""Writes a script of so many bytes, for bench/sim.sh.

usage: sim_script.py mixed|flush|text|raw|fetch|brokers|actors|segments|faults|copies|closed|trims|expiries|remote BYTES

mixed: groups of 64 lines and 16,384 bytes, so 256 bytes a line: 61 appends with values of 236 or 237 letters, a flush,
an ack, and a fetch of at most 128 KiB from some offset of the log so far. BYTES is a multiple of 16,384.
flush: flush lines alone, filled up with blanks to 256 bytes, so 65,536 of them, the most commands of a script, are 16 MiB.
text: the reader alone: lines of options' words, comments and blanks that ask for nothing, of 4 to 259 bytes.
raw: the check of batches: raw lines of one batch of 4,096 bytes with records of about 100 bytes, so half of the bytes
of the script go through it.
fetch: the trace's writer: one append of 64 KiB, a flush, an ack, and fetches that are given it: 16 times BYTES in all, so
the trace has 32 times BYTES. The script itself is small.
brokers: eight brokers, of which each has an actor: groups of 64 lines of 256 bytes, and so 65,535 commands in 16 MiB. A leader
appends, the others follow, all flush and acknowledge; in every eighth group the lead goes on to the next broker, and all
learn and join.
actors: eight partitions, of which each has eight actors: lines of 256 bytes, of which six of eight are appends of 200 letters and
the others flushes and acks, in turn by all actors; 65,535 commands in 16 MiB.
segments: lines of 256 bytes: appends into segments of their own, half of the lines and 4,096 at most, and then flushes.
faults: lines of 256 bytes: half of them are faults of the disk's reads, in their order, and half are fetches that meet them.
copies: 125 copies of segments of 1 MiB for each MiB of BYTES, so 2,000 for 16 MiB, near the most that a script may have. A
segment is copied 250 times: the last note of each copy but the last fails, so the next copy begins anew. The script has half
of BYTES, since it appends one segment for each 2 MiB.
closed: segments of one batch of 69 bytes, one for each 4 KiB of BYTES and 4,095 at most, and a copy of each.
trims: the same, and each copy is followed by a trim, so the local log has few segments.
expiries: segments of one batch of 69 bytes, one for each 4 KiB of BYTES and 4,095 at most, are copied; an expiry raises the log
start past all of them, and then an expiry deletes each.
remote: 64 segments of some 4,900 bytes are copied and trimmed, and then fetched from the remote tier, one batch at a time and all
over the log: 3,125 times for each MiB of BYTES, so 50,000 times for 16 MiB.
"""
import struct
import sys

GROUP = 16384  # bytes of 64 lines
APPENDS = 61
LIMIT = 131072  # of a fetch
LETTERS = "abcdefghijklmnopqrstuvwxyz"


def value(number, length):
    """Letters that differ from record to record."""
    at = number * 7 % 26
    return (LETTERS[at:] + LETTERS * 10)[:length]


def group(number):
    """The lines of a group. Zeros lead where a line is to have its length."""
    lines, first = [], number * APPENDS
    tail = ["0 0 0 flush\n", "0 0 0 ack\n", ""]
    # the fetch goes anywhere into the log, the same in each run
    offset = number * 7919 % (first + APPENDS)
    tail[2] = f"0 0 0 fetch {offset:010d} {LIMIT:010d}\n"
    left = GROUP - sum(map(len, tail))
    for i in range(APPENDS):
        head = f"0 0 0 append {1700000000000 + first + i},-,:"
        length = left // (APPENDS - i)
        lines.append(head + value(first + i, length - len(head) - 1) + "\n")
        left -= length
    return "".join(lines + tail)


def crc32c(data):
    """The checksum of a batch, bit by bit through one table."""
    register = 0xFFFFFFFF
    for byte in data:
        register = TABLE[(register ^ byte) & 255] ^ (register >> 8)
    return register ^ 0xFFFFFFFF


def table_entry(number):
    for _ in range(8):
        number = number >> 1 ^ (0x82F63B78 if number & 1 else 0)
    return number


TABLE = [table_entry(number) for number in range(256)]


def varint(number):
    """A number that isn't negative, in zigzag."""
    number, out = 2 * number, b""
    while number > 127:
        out, number = out + bytes([number & 127 | 128]), number >> 7
    return out + bytes([number])


def batch(size):
    """A batch of at most so many bytes, of records with values of 90 letters."""
    records, count = b"", 0
    while True:
        body = b"\0" + varint(count) + varint(count) + b"\1" + varint(90) + value(count, 90).encode() + b"\0"
        one = varint(len(body)) + body
        if 61 + len(records) + len(one) > size:
            break
        records, count = records + one, count + 1
    late = struct.pack(">hiqqqhii", 0, count - 1, 1700000000000, 1700000000000 + count - 1, -1, -1, -1, count) + records
    return struct.pack(">qiibI", 0, 9 + len(late), 0, 2, crc32c(late)) + late


def texts(size):
    """Lines that ask for nothing."""
    lines = ["\n", "# " + value(3, 255) + "\n", " \t \n", "#" + " words of a comment" * 5 + "\r\n"]
    whole = "".join(lines)
    return whole * (size // len(whole))


def fetches(size):
    """One batch, given again and again."""
    yield "0 0 0 append 1700000000000,-,:" + value(0, 260) * 248 + "\n0 0 0 flush\n0 0 0 ack\n"
    for _ in range(size * 16 // 65536):
        yield "0 0 0 fetch 0 1\n"


def steady(leader, number):
    """Six appends, then each follower takes them, all flush and acknowledge, and the leader is read."""
    lines = [(leader, f"append {1700000000000 + number},-,:" + value(number + i, 150)) for i in range(6)]
    others = [broker for broker in range(8) if broker != leader]
    for command in ["follow 1000000", "flush", "ack"]:
        lines += [(broker, command) for broker in others]
    lines += [(leader, "flush"), (leader, "ack"), (leader, f"fetch {number} 1000")]
    return lines + [(leader, f"append {1700000000000 + number},-,:x")] * (64 - len(lines))


def moved(leader, following):
    """The lead goes on to a broker that is in sync, and all find their places."""
    others = [broker for broker in range(8) if broker != following]
    lines = [(following, "elect"), (following, "learn")]
    for command in ["learn", "join", "follow 1000000", "flush", "ack"]:
        lines += [(broker, command) for broker in others]
    lines += [(following, "flush"), (following, "ack"), (leader, "stop"), (leader, "up"), (leader, "learn"), (leader, "join")]
    return lines + [(following, "flush")] * (64 - len(lines))


def brokers(size):
    """Groups of eight brokers' commands."""
    yield "brokers 8".ljust(255) + "\n"
    leader = 0
    for number in range(size // GROUP):
        if number % 8 == 7:
            lines, leader = moved(leader, (leader + 1) % 8), (leader + 1) % 8
        else:
            lines = steady(leader, number)
        if number == size // GROUP - 1:
            lines = lines[:-1]
        for broker, command in lines:
            yield f"{broker} 0 {broker} {command}".ljust(255) + "\n"


def actors(size):
    """Eight partitions of eight actors each, which append, flush and acknowledge."""
    yield "partitions 8".ljust(255) + "\n"
    for number in range(size // 256 - 1):
        actor, turn = number % 64, number // 64
        command = f"append {1700000000000 + turn},-,:" + value(number, 200)
        if turn % 8 > 5:
            command = ["flush", "ack"][turn % 8 - 6]
        yield f"{actor} {actor // 8} 0 {command}".ljust(255) + "\n"


def segments(size):
    """Segments of a batch each, and flushes of all of them."""
    appends = min(size // 512, 4096)
    yield "segment_bytes 100".ljust(255) + "\n"
    for _ in range(appends):
        yield "0 0 0 append 1700000000000,-,:x".ljust(255) + "\n"
    for _ in range(size // 256 - appends - 1):
        yield "0 0 0 flush".ljust(255) + "\n"


def faults(size):
    """Reads that are to fail, and fetches that make them."""
    reads = size // 512 - 2
    for number in range(1, reads + 1):
        yield f"fault 0 disk 0 read {number} before".ljust(255) + "\n"
    for command in ["append 1700000000000,-,:x", "flush", "ack"]:
        yield f"0 0 0 {command}".ljust(255) + "\n"
    for _ in range(reads + 1):
        yield "0 0 0 fetch 0 1".ljust(255) + "\n"


def copies(size):
    """Segments of 128 batches of 8 KiB, and copies of them that fail at their last note, but for each segment's last."""
    count = size * 125 // 1048576
    segments = max(1, count // 250)
    each = count // segments
    for copy in range(1, count + 1):
        if copy % each:
            yield f"fault 0 meta append {2 * copy} before\n"
    for number in range(segments * 128):
        yield f"0 0 0 append {1700000000000 + number},-,:" + value(number, 260) * 31 + "\n"
    for command in ["roll", "flush", "ack"] + ["copy"] * count:
        yield f"0 0 0 {command}\n"


def closed(size):
    """Segments of a batch each, and a copy of each."""
    count = min(size // 4096, 4095)
    yield "segment_bytes 100\n"
    for _ in range(count):
        yield "0 0 0 append 1700000000000,-,:x\n"
    for command in ["roll", "flush", "ack"] + ["copy"] * count:
        yield f"0 0 0 {command}\n"


def trims(size):
    """Segments of a batch each, and a copy and a trim of each."""
    count = min(size // 4096, 4095)
    yield "segment_bytes 100\nlocal_retention_bytes 0\n"
    for _ in range(count):
        yield "0 0 0 append 1700000000000,-,:x\n"
    for command in ["roll", "flush", "ack"] + ["copy", "trim"] * count:
        yield f"0 0 0 {command}\n"


def expiries(size):
    """Segments of a batch each, a copy of each, and an expiry of each once the log start has passed them all."""
    count = min(size // 4096, 4095)
    yield "segment_bytes 100\nretention_bytes 0\n"
    for _ in range(count):
        yield "0 0 0 append 1700000000000,-,:x\n"
    for command in ["roll", "flush", "ack"] + ["copy"] * count + ["expire"] * (count + 1):
        yield f"0 0 0 {command}\n"


def remote(size):
    """A log that is in the remote tier alone, but for its open segment, and fetches of one batch each."""
    segments, each = 64, 71
    yield "segment_bytes 4900\nindex_interval_bytes 500\nlocal_retention_bytes 0\n"
    for _ in range(segments * each):
        yield "0 0 0 append 1700000000000,-,:x\n"
    for command in ["roll", "flush", "ack"] + ["copy", "trim"] * segments:
        yield f"0 0 0 {command}\n"
    for number in range(size * 3125 // 1048576):
        yield f"0 0 0 fetch {number * 7919 % (segments * each)} 1\n"


def main(kind, size):
    if kind == "mixed":
        for number in range(size // GROUP):
            sys.stdout.write(group(number))
    elif kind == "flush":
        line = "0 0 0 flush".ljust(255) + "\n"
        sys.stdout.write(line * (size // len(line)))
    elif kind == "text":
        sys.stdout.write(texts(size))
    elif kind == "raw":
        line = "0 0 0 raw " + batch(4096).hex() + "\n"
        sys.stdout.write(line * (size // len(line)))
    elif kind == "fetch":
        sys.stdout.writelines(fetches(size))
    elif kind == "brokers":
        sys.stdout.writelines(brokers(size))
    elif kind == "actors":
        sys.stdout.writelines(actors(size))
    elif kind == "segments":
        sys.stdout.writelines(segments(size))
    elif kind == "faults":
        sys.stdout.writelines(faults(size))
    elif kind == "copies":
        sys.stdout.writelines(copies(size))
    elif kind == "closed":
        sys.stdout.writelines(closed(size))
    elif kind == "trims":
        sys.stdout.writelines(trims(size))
    elif kind == "expiries":
        sys.stdout.writelines(expiries(size))
    elif kind == "remote":
        sys.stdout.writelines(remote(size))
    else:
        sys.exit(__doc__)


if __name__ == "__main__":
    if len(sys.argv) != 3:
        sys.exit(__doc__)
    main(sys.argv[1], int(sys.argv[2]))
