#!/usr/bin/env python3
"""Measures openings of a directory with a long log, and what a step costs there in system calls.

usage: bench/open.py [PROGRAM [SEGMENTS [BYTES [CHECKSUM]]]]

The directory has one partition with one broker, whose log has SEGMENTS segments (4,096) and BYTES bytes (1 GiB) in all, in
batches of at most 64 KiB. It is made in a temporary folder (TMPDIR names another one). PROGRAM is ./tiered by default.
CHECKSUM is bench/crc.sh's program (crates/crc_speed/out/crc_speed by default).

- Pace: the processor seconds of a run whose one command is `up`, the least of three, less those of the same run over an empty
  log; beside them those that reading the same files takes, and the seconds of the checksum of as many bytes in memory.
- Memory: the peak of that run, less that of the same run over an empty log.
- Calls: the system calls of each command that follows, as a difference of two runs (needs strace). Calls on the registry's
  files are counted apart.
"""
import os
import re
import shutil
import struct
import subprocess
import sys
import tempfile
import time

sys.path.insert(0, os.path.dirname(os.path.abspath(__file__)))
from sim_script import batch  # noqa: E402

TOP = os.path.join(os.path.dirname(os.path.abspath(__file__)), "..")
ROUNDS = 3
# What is run after `up`, `elect` and `learn`: so many times each command.
TIMES = 20


def write_log(folder, segments, size):
    """Writes a partition's folder as a run leaves it: the log of broker 0 in epoch 0, all of it committed. Gives its end."""
    log = os.path.join(folder, "p0", "b0")
    for name in (log, os.path.join(folder, "p0", "reg")):
        os.makedirs(name)
    each = size // segments
    count = max(1, each // 65536)
    one = bytearray(batch(each // count))
    # A leader's epoch is that of the broker that appended: 0.
    one[12:16] = struct.pack(">i", 0)
    records = struct.unpack(">i", one[23:27])[0] + 1
    offset, listed = 0, []
    for _ in range(segments):
        base, data = offset, []
        for _ in range(count):
            one[0:8] = struct.pack(">q", offset)
            data.append(bytes(one))
            offset += records
        data = b"".join(data)
        with open(os.path.join(log, f"{base:020d}.log"), "wb") as f:
            f.write(data)
        listed.append(struct.pack(">QI", base, len(data)))
    # The tables of these two files are in log_manifest/specs/Spelling and registry_file/specs/Spelling.
    with open(os.path.join(log, "manifest"), "wb") as f:
        f.write(struct.pack(">4sIQI", b"TLM1", 1, 0, len(listed)) + b"".join(listed) + struct.pack(">IIQ", 1, 0, 0))
    with open(os.path.join(folder, "p0", "reg", "registry"), "wb") as f:
        f.write(struct.pack(">4sHIHQQBQ", b"TLR1", 1, 0, 0, offset, 0, 1, offset))
    return offset


def run(words, script):
    """Processor seconds, peak memory in KiB and the trace of a run."""
    with tempfile.TemporaryFile() as source, tempfile.TemporaryFile() as trace:
        source.write(script.encode())
        source.seek(0)
        child = subprocess.Popen(words, stdin=source, stdout=trace)
        _, status, used = os.wait4(child.pid, 0)
        if status:
            sys.exit(f"{' '.join(words)} ends with status {os.waitstatus_to_exitcode(status)}")
        trace.seek(0)
        return used.ru_utime + used.ru_stime, used.ru_maxrss, trace.read().decode()


def opening(program, folder, end):
    """The least processor seconds and the peak memory of a run that opens the log."""
    seconds, memory = [], []
    for _ in range(ROUNDS):
        took, peak, trace = run([program, "run", folder], "0 0 0 up\n")
        if f"= Up {end}" not in trace:
            sys.exit(f"the log opens otherwise: {trace}")
        seconds.append(took)
        memory.append(peak)
    return min(seconds), min(memory)


def reading(folder):
    """The least processor seconds that reading all segments takes, and their bytes."""
    log = os.path.join(folder, "p0", "b0")
    names = sorted(name for name in os.listdir(log) if name.endswith(".log"))
    seconds, size = [], 0
    for _ in range(ROUNDS):
        began, size = time.process_time(), 0
        for name in names:
            with open(os.path.join(log, name), "rb", buffering=0) as f:
                size += len(f.read())
        seconds.append(time.process_time() - began)
    return min(seconds), size


def checksum(program, size):
    """Seconds that the checksum of so many bytes takes, by the best of five rounds, or none without the program."""
    if not os.path.exists(program):
        return None
    said = subprocess.run([program, "268435456", "5", "time"], capture_output=True, text=True, check=True).stdout
    paces = [float(m[1]) * float(m[2]) for m in re.finditer(r"copy (\d+) MB/s; of that braided ([\d.]+)", said)]
    return size / (max(paces) * 1e6)


def calls(program, folder, script):
    """The system calls of a run: on the registry's files, and all others that name a file or a descriptor."""
    with tempfile.NamedTemporaryFile("r") as log:
        words = ["strace", "-f", "-y", "-e", "trace=file,desc", "-o", log.name, program, "run", folder]
        run(words, script)
        lines = log.read().splitlines()
    registry = sum("/p0/reg" in line for line in lines)
    return registry, len(lines) - registry


def steps(program, room):
    """A line for each command: calls on the registry's files and other calls, of each time that it is given."""
    front = "0 0 0 up\n0 0 0 elect\n0 0 0 learn\n"
    append = "0 0 0 append 1700000000000,-,:" + "v" * 100 + "\n"
    kinds = {
        "append": ("", append),
        "fetch": (append + "0 0 0 flush\n0 0 0 ack\n", "0 0 0 fetch 0 1\n"),
        "append, flush": ("", append + "0 0 0 flush\n"),
        "ack that changes nothing": (append + "0 0 0 flush\n0 0 0 ack\n", "0 0 0 ack\n"),
        "append, flush, ack": ("", append + "0 0 0 flush\n0 0 0 ack\n"),
    }
    for kind, (first, repeated) in kinds.items():
        counts = []
        for times in (TIMES, 2 * TIMES):
            folder = os.path.join(room, "steps")
            write_log(folder, 1, 1000)
            counts.append(calls(program, folder, front + first + repeated * times))
            shutil.rmtree(folder)
        registry, other = ((b - a) / TIMES for a, b in zip(*counts))
        yield f"{kind:28} registry {registry:5.2f}, other {other:5.2f}"


def main(program="./tiered", segments="4096", size=str(1 << 30), crc=f"{TOP}/crates/crc_speed/out/crc_speed"):
    room = tempfile.mkdtemp(prefix="open-")
    try:
        full, empty = os.path.join(room, "full"), os.path.join(room, "empty")
        # By a process of its own, since a run's peak memory counts what this one had as it began.
        made = subprocess.run([sys.executable, __file__, "write", full, segments, size], capture_output=True, text=True, check=True)
        end = int(made.stdout)
        run([program, "run", empty], "0 0 0 flush\n")
        took, peak = opening(program, full, end)
        least, floor = opening(program, empty, 0)
        read, count = reading(full)
        print(f"log: {segments} segments, {count} bytes; the opening takes {took - least:.3f} s and {peak - floor} KiB")
        summed = checksum(crc, count)
        if summed is not None:
            print(f"reading {read:.3f} s, checksum {summed:.3f} s; together {(read + summed) / (took - least):.2f} of the opening")
        if shutil.which("strace"):
            print(*steps(program, room), sep="\n")
    finally:
        shutil.rmtree(room)


if __name__ == "__main__":
    if sys.argv[1:2] == ["write"]:
        print(write_log(sys.argv[2], int(sys.argv[3]), int(sys.argv[4])))
        sys.exit()
    if len(sys.argv) > 5 or sys.argv[1:2] == ["--help"]:
        sys.exit(__doc__)
    main(*sys.argv[1:])
