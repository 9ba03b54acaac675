#!/usr/bin/env python3
"""Seconds and memory of kzone on bundles of many lines or fields, which are made here.

replay.py PROGRAM [WORKLOAD..] [--lines N] [--times K]

PROGRAM is the built program, crates/kzone/out/kzone after `rt run` there. Each workload is measured at N / 100, N / 10
and N lines or fields (N is 1,000,000 if not said). The least of K runs counts (5 if not said). Memory is the most that
was resident, where /usr/bin/time or another time(1) is there to tell it.

The workloads, each with the word that it is for:
  first  replay  one type of 16 bytes, 256 allocations, then frees that are done or refused
  types  plan    up to 1024 types of many fields, no steps
  steps  plan    one type, up to 100,000 names, and steps on them
  zones  replay  24 zones on one supply, one CPU, allocations and frees of up to 50,000 names
  cpus   replay  16 CPUs with up to 1000 rounds, 100,000 names, steps of all kinds
  gifts  replay  two CPUs, up to 100,000 gifts under way at once
"""
import argparse
import random
import shutil
import subprocess
import tempfile
import time

SMALL = "machine 1\nseed plain\ncpus 1\nframes 8\npages 16\nbudget 2\nmagazine 2\ndepot 1\n"
LARGE = "machine 1\nseed 7\ncpus 1\nframes 8\npages 16\nbudget 128\nmagazine 2\ndepot 1\n"
KINDS = ("ptr", "u64", "u32", "auth", "u8")


def first(lines):
    allocations = min(lines, 256)
    steps = ["a n%d blob\n" % i for i in range(allocations)]
    steps += ["f n%d\n" % (i % 256) for i in range(lines - allocations)]
    return SMALL + "type blob { bytes 16 b }\ncpu 0\n" + "".join(steps) + "end\n"


def fields_of(number, count):
    return "; ".join("%s f%d" % (KINDS[(number * 7 + i * (1 + number % 5)) % 5], i) for i in range(count))


def types(fields):
    each = min(max(1, fields // 1024), 1000)
    lines = ["type t%d { %s }\n" % (number, fields_of(number, each)) for number in range(min(fields, 1024))]
    return LARGE + "".join(lines) + "cpu 0\nend\n"


def steps(lines):
    names = min(100_000, max(1, lines // 4))
    forms = ("f n%d\n", "r n%d 0 8\n", "w n%d 8 00ff\n")
    text = ["a n%d proc\n" % i for i in range(names)]
    text += [forms[i % 3] % (i * 7919 % names) for i in range(lines - names)]
    return SMALL + "type proc { ptr next; u32 pid; u32 flags }\ncpu 0\n" + "".join(text) + "end\n"


def header(cpus, budget):
    numbers = (("cpus", cpus), ("frames", 8192), ("pages", 4096), ("budget", budget), ("magazine", 16), ("depot", 8))
    return "machine 1\nseed 7\n" + "".join("%s %d\n" % row for row in numbers)


def bursts(drawn, count, names, line):
    """So many lines: allocations of names that are free, then frees of names that are not, each up to 4000 at once."""
    text, live, free = [], [], list(range(names))
    while len(text) < count:
        for source, target, word in ((free, live, "a"), (live, free, "f")):
            for _ in range(min(drawn.randint(1, 4000), len(source), count - len(text))):
                at = drawn.randrange(len(source))
                source[at], source[-1] = source[-1], source[at]
                target.append(source.pop())
                text.append(line(word, target[-1]))
    return text


def zones(lines):
    sizes = (16, 32, 48, 64, 80, 96, 112, 128, 160, 192, 224, 256, 320, 384, 448, 512, 640, 768, 896, 1024, 1280, 1536, 1792, 2048)
    types = ["type t%d { bytes %d b }\n" % row for row in enumerate(sizes)]
    text = bursts(random.Random(1), lines, min(50_000, lines // 2 + 1),
                  lambda word, name: "%s n%d%s\n" % (word, name, " t%d" % (name % 24) if word == "a" else ""))
    return header(1, 1) + "".join(types) + "cpu 0\n" + "".join(text) + "end\n"


def cpus(lines):
    drawn = random.Random(2)
    rounds = min(1000, max(1, lines // 1000))
    names = min(6250, max(1, lines // 64))
    types = ["type t%d { ptr p; bytes %d b }\n" % (number, 8 + 24 * number) for number in range(8)]
    parts = [header(16, 16)] + types
    each = lines // 16
    for cpu in range(16):
        parts.append("cpu %d\n" % cpu)
        for at in range(each):
            if at * rounds // each > (at - 1) * rounds // each and at > 0:
                parts.append("--\n")
            name = at if at < names else drawn.randrange(names)
            kind = 0 if at < names else drawn.randrange(16)
            here = "n%d_%d" % (cpu, name)
            there = "n%d_%d" % ((cpu + 15) % 16, name)
            kinds = ("a %s t%d" % (here, name % 8),) * 6 + ("f %s" % here,) * 4 + (
                "z %s t%d" % (here, name % 8), "r %s 0 8" % here, "w %s 0 00ff00ff" % here, "g %s %d" % (here, (cpu + 1) % 16), "t %s" % there,
                ("flush t%d" if name % 4 else "trim t%d") % (name % 8))
            parts.append(kinds[kind] + "\n")
    return "".join(parts) + "end\n"


def gifts(lines):
    names = min(100_000, max(1, lines // 3))
    first = ["a n%d t\ng n%d 1\n" % (name, name) for name in range(names)]
    second = ["t n%d\n" % name for name in reversed(range(names))]
    return header(2, 1) + "type t { bytes 16 b }\ncpu 0\n" + "".join(first) + "cpu 1\n" + "".join(second) + "end\n"


WORKLOADS = {
    "first": ("replay", first),
    "types": ("plan", types),
    "steps": ("plan", steps),
    "zones": ("replay", zones),
    "cpus": ("replay", cpus),
    "gifts": ("replay", gifts),
}


def run(program, word, path):
    timer = [shutil.which("time"), "-f", "%M"] if shutil.which("time") else []
    with open(path, "rb") as data:
        begin = time.perf_counter()
        done = subprocess.run(timer + [program, word], stdin=data, stdout=subprocess.DEVNULL, stderr=subprocess.PIPE)
        took = time.perf_counter() - begin
    if done.returncode != 0:
        raise SystemExit("%s %s ended with %d: %r" % (program, word, done.returncode, done.stderr[:200]))
    return took, int(done.stderr.split()[-1]) / 1024 if timer else float("nan")


def measure(program, name, lines, times):
    word, bundle = WORKLOADS[name]
    with tempfile.NamedTemporaryFile("w", suffix=".bundle") as file:
        file.write(bundle(lines))
        file.flush()
        runs = [run(program, word, file.name) for _ in range(times)]
    seconds = min(took for took, _ in runs)
    mebibytes = max(memory for _, memory in runs)
    print("%-9s %-7s %9d %9.4f %22.4f %7.1f" % (name, word, lines, seconds, seconds * 100_000 / lines, mebibytes))


def main():
    parser = argparse.ArgumentParser(usage=__doc__)
    parser.add_argument("program")
    parser.add_argument("workload", nargs="*")
    parser.add_argument("--lines", type=int, default=1_000_000)
    parser.add_argument("--times", type=int, default=5)
    arguments = parser.parse_args()
    for name in arguments.workload:
        if name not in WORKLOADS:
            parser.error("there is no workload %s" % name)
    print("%-9s %-7s %9s %9s %22s %7s" % ("workload", "word", "lines", "seconds", "seconds per 100,000", "MiB"))
    for name in arguments.workload or WORKLOADS:
        for lines in (arguments.lines // 100, arguments.lines // 10, arguments.lines):
            measure(arguments.program, name, lines, arguments.times)


if __name__ == "__main__":
    main()
