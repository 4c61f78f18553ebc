"""Compares the waves of a run with its transcript: for each report of the monitor, the wires have to show that transfer at that time.

    VCD=waves.vcd ./bench bench.toml > transcript.txt
    python3 waves.py waves.vcd transcript.txt
"""
import re
import sys

DECLARED = re.compile(r"\s*\$var \w+ +\d+ (\S+) (\w+)")
CHANGED = re.compile(r"(?:b([01]+) |([01]))(\S+)$")
REPORT = re.compile(r"UVM_INFO @ (\d+): \S+ \[MON\] (read|write) addr=(\d+) data=0x([0-9a-f]+)$")


def samples(file):
    """For each rising edge of `clk` in a VCD, yields its time in ticks, and the wires as they were just before it."""
    names, wires, before, time = {}, {}, {}, 0
    for line in file:
        declared, changed = DECLARED.match(line), CHANGED.match(line)
        if declared:
            names.setdefault(declared[1], declared[2])
        elif line.startswith("#"):
            time, before = int(line[1:]), dict(wires)
        elif changed and changed[3] in names:
            name = names[changed[3]]
            wires[name] = int(changed[1] or changed[2], 2)
            if name == "clk" and wires[name] and before:
                yield time, before


def transfers(file):
    """Returns the transfers that a VCD shows: the time at which `valid` is sampled, the operation, the address and the data."""
    found, transfer = [], None
    for time, wires in samples(file):
        if wires["valid"]:
            operation, address, data = transfer
            found.append((time, operation, address, wires["rdata"] if operation == "read" else data))
        if wires["req"] and wires["gnt"]:
            transfer = "write" if wires["we"] else "read", wires["addr"], wires["wdata"]
    return found


def reports(file):
    """Returns the transfers that the monitor reports in a transcript."""
    return [(int(it[1]), it[2], int(it[3]), int(it[4], 16)) for it in map(REPORT.match, file) if it]


def main(waves, transcript):
    with open(waves, encoding="ascii") as file:
        shown = transfers(file)
    with open(transcript, encoding="ascii") as file:
        reported = reports(file)
    good = shown == reported != []
    print("%d transfers in the waves, %d reports: %s" % (len(shown), len(reported), "they line up" if good else "they do not line up"))
    for pair in [pair for pair in zip(shown, reported) if pair[0] != pair[1]][:3]:
        for name, (time, operation, address, data) in zip(("waves ", "report"), pair):
            print("%s @ %d: %s addr=%d data=0x%08x" % (name, time, operation, address, data))
    return 0 if good else 1


if __name__ == "__main__":
    if len(sys.argv) != 3:
        sys.exit(__doc__.strip())
    sys.exit(main(*sys.argv[1:]))
