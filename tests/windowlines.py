#!/usr/bin/env python3
"""The line program, as built, against recorded answers and against the oracle.

  tests/windowlines.py recorded   recorded files and those of examples/lines, byte for byte
  tests/windowlines.py oracle     recorded and generated files, the same bytes in small writes, lines no program
                                  should be asked, and writes that fail
  tests/windowlines.py traffic    call files made from real SRT connections (../shared/data/srt), as the oracle

In the recorded files, and in the generated ones, every letter that the line parser knows is answered.
"""
import random
import re
import subprocess
import sys
from collections import Counter
from pathlib import Path

ROOT = Path(__file__).resolve().parent.parent
PROGRAM = ROOT / "target/bin/windowlines"
ORACLE = ROOT / "oracle/target/oracle"
GENERATE = ROOT / "oracle/target/generate"
RECORDED = ROOT / "tests/recorded"
EXAMPLES = ROOT / "examples/lines"
TRAFFIC = ROOT.parent / "shared/data/srt"
PARSER = ROOT / "crates/line_text/src/lib.rt"
GENERATED = 1050
LONG = 10  # lists of 100,000 calls
# What the answers must show, each in so many lines at least.
SHOWN = {
    "strangers": (rb"^q\t\d", 100000),
    "64 values or more": (rb"^[a-z]\t[^\t\n]+\t(?:6[4-9]|[7-9]\d|\d{3,})\t", 100000),
    "retired values held": (rb"^[a-z]\t[^\t\n]+\t\d+\t[1-9]", 10000),
    "fronts taken": (rb"^t\t\d", 10000),
    "pages revived": (rb"^i\t[^\t\n]+(?:\t\d+){5}", 1000),
    **{f"refused 10 by {letter}": (rb"^%c\t!10\t" % ord(letter), 100) for letter in "igerfsdq"},
}
ANSWERED = 1000  # lines of each letter with an answer that is not `?`
WRAPPED = 1000  # ranges taken whose last sequence is below their first


def split_at_line_feeds(data):
    parts = data.split(b"\n")
    whole = [part + b"\n" for part in parts[:-1]]
    return whole + [parts[-1]] if parts[-1] else whole


def run(command, data):
    done = subprocess.run([str(command)], input=data, capture_output=True, timeout=120)
    if done.returncode != 0:
        raise SystemExit(f"{command} ended with status {done.returncode}: {done.stderr[:300]!r}")
    return done.stdout


def compare(name, got, wanted):
    if got == wanted:
        return
    for number, (a, b) in enumerate(zip(split_at_line_feeds(got), split_at_line_feeds(wanted)), 1):
        if a != b:
            raise SystemExit(f"{name}, line {number}: the program says {a[:200]!r}, wanted is {b[:200]!r}")
    raise SystemExit(f"{name}: the program wrote {len(got)} bytes, wanted are {len(wanted)}")


def demand_letters(answered, least):
    """Each letter of field_count begins so many answers."""
    known = re.search(r"fn field_count\(.*?^}", PARSER.read_text(), re.M | re.S)[0]
    for letter in re.findall(r"b'(\w)'", known):
        if answered[letter.encode()] < least:
            raise SystemExit(f"only {answered[letter.encode()]} answers to the letter {letter}")


def recorded_inputs():
    recorded = sorted(path for path in RECORDED.glob("*.in") if not path.name.endswith(".large.in"))
    return recorded + sorted(EXAMPLES.glob("*.in"))


def check_recorded():
    files = calls = 0
    answered = Counter()
    for path in recorded_inputs():
        data = path.read_bytes()
        wanted = path.with_suffix(".out").read_bytes()
        compare(path.name, run(PROGRAM, data), wanted)
        answered.update(line[:1] for line in wanted.split(b"\n"))
        files += 1
        calls += len(split_at_line_feeds(data))
    if files < 110:
        raise SystemExit(f"only {files} recorded files")
    demand_letters(answered, 1)
    print(f"{calls} lines of {files} files")


def generated(seed):
    options = [[], ["--small"], ["--small", "--pairs"], ["--clean"], ["--small", "--clean"], ["--strangers"], ["--small", "--strangers", "--clean"]][seed % 7]
    calls = [60, 300, 1000, 3000][seed % 4]
    command = [str(GENERATE), str(seed), str(calls)] + options
    return subprocess.run(command, capture_output=True, check=True).stdout


def odd_inputs():
    """Bytes that are no calls, and lines that straddle the reads of 65,536 bytes."""
    begin = b"n\t64\t2\t1\ni\t5\t50\n"
    yield b""
    yield b"\n"
    yield b"\n\n\n" + begin
    yield begin + b"g\t5"
    yield begin + b"g\t5\r\ng\t5\n"
    yield begin + b"\tg\t5\ng 5\ng\t5\t\ng\t\ng\t05\ng\t+5\ng\t-5\ng\t5.0\n"
    yield begin + b"g\t4294967295\ng\t4294967296\ng\t42949672950\ng\t99999999999999999999999999999999\n"
    yield begin + b"x\t1\nN\t64\t2\t1\n\x00\ng\x00\t5\n\xff\xfe\n"
    yield b"i\t5\t50\nl\nn\t0\t2\t1\nn\t64\t0\t0\nn\t64\t64\t1\nn\t64\t2\t3\nl\nn\t4097\t2\t1\nn\t4096\t2\t1\nl\nn\t0\t1\t1\nl\n"
    for size in (33, 34, 35, 63, 64, 65, 66, 1000, 65535, 65536, 65537, 200000):
        yield begin + b"g\t" + b"5" * (size - 2) + b"\ng\t5\n" + b"g" * size + b"\ng\t5"
    line = b"g\t5\n"
    for shift in range(8):
        yield begin + b"\n" * shift + line * 40000
    yield begin + b"g\t5\n" * 16380 + b"x" * 3 * 65536 + b"\ng\t5\n"


def in_small_writes(data, seed):
    """The same bytes in writes of a few bytes each, so that lines straddle reads."""
    chance = random.Random(seed)
    process = subprocess.Popen([str(PROGRAM)], stdin=subprocess.PIPE, stdout=subprocess.PIPE)
    at = 0
    while at < len(data):
        size = chance.choice([1, 2, 3, 5, 17, 64])
        process.stdin.write(data[at:at + size])
        process.stdin.flush()
        at += size
    process.stdin.close()
    out = process.stdout.read()
    if process.wait(timeout=60) != 0:
        raise SystemExit("the program fails on input in small writes")
    return out


def check_failed_writes(data):
    """A device that is full, and an output that is closed: the program ends."""
    for command in ('exec "$0" > /dev/full', 'exec "$0" >&-'):
        subprocess.run(["sh", "-c", command, str(PROGRAM)], input=data * 50, capture_output=True, timeout=60)


def generated_files():
    """Name and bytes of each generated file, the long lists last."""
    for seed in range(50001, 50001 + GENERATED):
        yield seed, generated(seed)
    for seed in range(70001, 70001 + LONG):
        options = [[], ["--small"], ["--clean"], ["--small", "--clean"], ["--clean"]][seed % 5]
        yield seed, subprocess.run([str(GENERATE), str(seed), "100000"] + options, capture_output=True, check=True).stdout


def wrapped(data, answers):
    """The ranges that were taken and whose last sequence is below their first."""
    lines = zip(split_at_line_feeds(data), split_at_line_feeds(answers))
    calls = [asked.split() for asked, said in lines if re.match(rb"d\t\d", said)]
    return sum(int(last) < int(first) for _, first, last in calls)


def check_oracle():
    files = calls = 0
    shown = dict.fromkeys(SHOWN, 0)
    shown["ranges that wrap"] = 0
    answered = Counter()
    for path in recorded_inputs():
        data = path.read_bytes()
        compare(path.name, run(PROGRAM, data), run(ORACLE, data))
        files += 1
        calls += len(split_at_line_feeds(data))
    for seed, data in generated_files():
        answers = run(ORACLE, data)
        compare(f"generate {seed}", run(PROGRAM, data), answers)
        files += 1
        calls += len(split_at_line_feeds(data))
        for name, (pattern, _) in SHOWN.items():
            shown[name] += len(re.findall(pattern, answers, re.M))
        shown["ranges that wrap"] += wrapped(data, answers)
        answered.update(line[:1] for line in answers.split(b"\n"))
        if seed % 40 == 0:
            small = data[:4000]
            compare(f"generate {seed}, in small writes", in_small_writes(small, seed), run(ORACLE, small))
    wanted = {name: least for name, (_, least) in SHOWN.items()} | {"ranges that wrap": WRAPPED}
    for name, least in wanted.items():
        if shown[name] < least:
            raise SystemExit(f"only {shown[name]} lines with {name}")
    demand_letters(answered, ANSWERED)
    odd = 0
    for data in odd_inputs():
        compare(f"odd input {odd}: {data[:80]!r}", run(PROGRAM, data), run(ORACLE, data))
        odd += 1
    check_failed_writes(generated(50001))
    said = ", ".join(f"{count} {name}" for name, count in shown.items())
    print(f"{calls} lines of {files} files, {GENERATED + LONG} of them generated, and {odd} odd inputs; {said}")


def check_traffic():
    files = sorted(TRAFFIC.glob("calls-*.in"))
    calls = 0
    for path in files:
        data = path.read_bytes()
        answers = run(ORACLE, data)
        compare(path.name, run(PROGRAM, data), answers)
        if b"?" in answers:
            raise SystemExit(f"{path.name}: a line that is no call")
        calls += len(split_at_line_feeds(data))
    if len(files) < 16:
        raise SystemExit(f"only {len(files)} files in ../shared/data/srt")
    print(f"{calls} lines of {len(files)} files of real traffic")


if __name__ == "__main__":
    if not PROGRAM.exists():
        subprocess.run([ROOT / "program"], check=True, stdout=subprocess.DEVNULL)
    {"recorded": check_recorded, "oracle": check_oracle, "traffic": check_traffic}[sys.argv[1]]()
