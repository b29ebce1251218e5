#!/usr/bin/env bash
# speed.sh [--f64] SRC [RUSTC] [PROTOTYPE]: what the programs and calls cost, as ratios and nothing else.
#   sheet (sheet64 with --f64) over the oracle's sheet, on the same blocks of each family: mixed, carts, convex, and copies of the block that takes the most
#     root steps. Processor time (user and system) is the least of seven runs of 20,000 blocks each, taking turns; instructions are those of 2,000.
#   102,400 mixed blocks over 1,024, in time and in the largest memory: the first grows with the batch, the second does not.
#   A cart's sweep and distance call through the C library over Box2D's, where its package is installed; the root over the processor's, in either width.
#   clearance over the C prototype in the folder PROTOTYPE (main.c, which answers a batch by `run`), on 2,000 moves of the ten kinds, carts and convex.
# Time is told on x86-64 alone. Instructions are counted by valgrind, elsewhere by Debian's qemu-user with tests/speed/instructions.c; there RUSTC has to write
# x86-64 programs, and the C compiler is x86_64-linux-gnu-g++. BOX2D may name a folder with usr/include and usr/lib of the package for x86-64.
# SRC is the folder that holds query/sweep_toi/*.rs of parry2d 0.31.1.
set -eu
wide=""; if [ "$1" = --f64 ]; then wide=64; shift; fi
src="$1" rustc="${2:-rustc}" prototype="${3:-}"
cd "$(dirname "$0")/../.."
machine="$(uname -m)"
if [ "$machine" = x86_64 ]; then
  run="" cc="${CC:-cc}" cxx="${CXX:-c++}"
else
  command -v qemu-x86_64 > /dev/null || { echo "skipped: speed: no qemu-x86_64 here to count the instructions of x86-64 programs"; exit 0; }
  run="qemu-x86_64 -L /usr/x86_64-linux-gnu" cc="${CC:-x86_64-linux-gnu-gcc}" cxx="${CXX:-x86_64-linux-gnu-g++}"
fi
export RUN="$run"
. tests/programs/with.sh
proved "sheet$wide" clearance
out=target/speed; mkdir -p "$out"
if [ -z "${ORACLES:-}" ]; then
  ORACLES=target/oracle
  oracle/build.sh "$src" "$ORACLES" "$rustc"
  [ -z "$wide" ] || oracle/build.sh --f64 "$src" "$ORACLES" "$rustc"
fi
if [ "$machine" = x86_64 ]; then
  counter="valgrind"; command -v valgrind > /dev/null || { counter=""; echo "skipped: instructions: no valgrind here"; }
else
  counter="$PWD/$out/instructions.so"; gcc -O2 -shared -fPIC -o "$counter" tests/speed/instructions.c
fi
calls=""
if ! command -v "$cxx" > /dev/null; then
  echo "skipped: calls through the C library: no $cxx here"
elif ! tools/staticlib.sh > "$out/staticlib.said" 2>&1; then
  echo "skipped: calls through the C library: libfoldflake.a is not built, $out/staticlib.said says why"
else
  calls="$out/box2d"; build() { "$cxx" -O2 -std=c++17 -Iinclude tests/speed/box2d.cpp target/staticlib/libfoldflake.a "$@" -o "$calls"; }
  if ! build ${BOX2D:+-I"$BOX2D/usr/include"} ${BOX2D:+"$BOX2D/usr/lib/x86_64-linux-gnu/libbox2d.so"} $([ -n "${BOX2D:-}" ] || echo -lbox2d) 2> "$out/box2d.said"; then
    echo "skipped: Box2D: no libbox2d-dev for x86-64 here"
    build -DNO_BOX2D
  fi
  if [ -n "${BOX2D:-}" ]; then
    there="LD_LIBRARY_PATH=$(cd "$BOX2D" && pwd)/usr/lib/x86_64-linux-gnu"
    if [ "$machine" = x86_64 ]; then export "$there"; else export QEMU_SET_ENV="$there"; fi
  fi
fi
trial=""
if [ -n "$prototype" ]; then trial="$out/prototype"; "$cc" -O2 -ffp-contract=off -w -static -o "$trial" "$prototype/main.c" -lm; fi
python3 - "$wide" "$machine" "$counter" "$bin" "$ORACLES" "$calls" "$trial" <<'PY'
import os, re, subprocess, sys, tempfile, threading

RUNS, COUNT, FEW, BLOCK, TIMES = 7, 20000, 2000, 512, 4
wide, machine, counter, programs, oracles, calls, trial = sys.argv[1:]
run, timed = os.environ["RUN"].split(), machine == "x86_64"
ours, theirs = [f"{programs}/sheet{wide}"], [f"{oracles}/oracle{wide}", "sheet"]


def made(family, count):
    return subprocess.run(run + [f"{oracles}/oracle", family, "1", str(count)], stdout=subprocess.PIPE, check=True).stdout


def worst(count):
    """Root steps of the mixed block that takes the most, and copies of the first such block."""
    blocks = made("batch", 2000)
    lines = subprocess.run(run + theirs, input=blocks, stdout=subprocess.PIPE, check=True).stdout.decode().splitlines()
    steps = [int(line.split()[11]) if len(line.split()) > 11 else 0 for line in lines]
    number = steps.index(max(steps))
    return max(steps), blocks[BLOCK * number : BLOCK * (number + 1)] * count


def used(command, data):
    """Processor seconds of one run."""
    with tempfile.TemporaryFile() as file:
        file.write(data)
        file.seek(0)
        process = subprocess.Popen(command, stdin=file, stdout=subprocess.DEVNULL)
        _, status, spent = os.wait4(process.pid, 0)
    assert status == 0, command
    return spent.ru_utime + spent.ru_stime


def instructions(command, data):
    if counter == "valgrind":
        with tempfile.TemporaryDirectory() as folder:
            command = ["valgrind", "--tool=callgrind", f"--callgrind-out-file={folder}/out"] + command
            told = subprocess.run(command, input=data, stdout=subprocess.DEVNULL, stderr=subprocess.PIPE, check=True).stderr.decode()
        return int(re.search(r"Collected : (\d+)", told).group(1))
    command = run + ["-plugin", counter] + command
    told = subprocess.run(command, input=data, stdout=subprocess.DEVNULL, stderr=subprocess.PIPE, check=True).stderr.decode()
    return int(re.search(r"instructions (\d+)", told).group(1))


def least(commands, data):
    """The least seconds of each, the runs taking turns."""
    taken = [[used(command, data) for command in commands] for _ in range(RUNS)]
    return [min(column) for column in zip(*taken)]


def tell(name, one, other, data, few, without=None):
    """What one costs over the other, each less what the same program costs that makes no call."""
    commands = [one, other] + ([without] if without else [])
    told = []
    for what, there, measured in (("time", timed, lambda: least(commands, data)), ("instructions", counter, lambda: [instructions(c, few) for c in commands])):
        if there:
            found = measured()
            off = found[2] if without else 0
            told.append(f"{what} {(found[0] - off) / (found[1] - off):.3f}")
    if told:
        print(f"{name}: {', '.join(told)}", flush=True)


def memory(command, data, count):
    """The largest resident set in KiB once `count` blocks are worked: a multiple of 128, since lines come when a part of 128 blocks is full. The
    input stays open meanwhile, so that the program is still there to be asked about."""
    process = subprocess.Popen(command, stdin=subprocess.PIPE, stdout=subprocess.PIPE)
    feeder = threading.Thread(target=lambda: (process.stdin.write(data), process.stdin.flush()))
    feeder.start()
    for _ in range(count):
        assert process.stdout.readline()
    with open(f"/proc/{process.pid}/status") as status:
        largest = next(int(line.split()[1]) for line in status if line.startswith("VmHWM:"))
    feeder.join()
    process.stdin.close()
    assert process.stdout.read().startswith(b"TOTAL ") and process.wait() == 0
    return largest


most, copies = worst(COUNT)
families = {"mixed": made("batch", COUNT), "carts": made("carts", COUNT), "convex": made("convex", COUNT), f"{most:,} root steps": copies}
for name, data in families.items():
    tell(f"sheet{wide}, {name}", ours, theirs, data, data[: BLOCK * FEW])
if timed:
    small, large = made("batch", 1024), made("batch", 102400)
    grown = min(used(ours, large) for _ in range(3)) / min(used(ours, small) for _ in range(3))
    print(f"sheet{wide}, 102,400 blocks over 1,024: time {grown:.1f}, memory {memory(ours, large, 102400) / memory(ours, small, 1024):.2f}")
if calls:
    few = families["carts"][: BLOCK * FEW]
    call = lambda what: [calls, what, str(TIMES)]
    there = subprocess.run(run + call("b2-sweep"), input=few[:BLOCK], stderr=subprocess.DEVNULL).returncode == 0
    pairs = [("root", "c-root"), ("root64", "c-root64")] + ([("sweep", "b2-sweep"), ("distance", "b2-distance")] if there else [])
    for mine, other in pairs:
        tell(f"{mine} over {other}", call(mine), call(other), families["carts"], few, call("none"))
if trial:
    for name in ("turning", "carts", "convex"):
        data = made(name, 200 if name == "turning" else FEW)
        tell(f"clearance over the prototype, {name}", [f"{programs}/clearance"], [trial, "run"], data, data)
PY
