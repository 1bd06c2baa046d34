#!/usr/bin/env python3
"""Prints how many instructions the calls of `bench` take, by valgrind's callgrind, as a markdown table.

    cargo build --release && python3 counts.py

Each count is that of many calls less that of none, over the calls. It does not depend on what else the machine does.
"""

import re
import subprocess
import tempfile

CALLS = [("point", 64), ("sphere", 64), ("box", 64), ("convex, 8 corners", 64), ("cylinder along", 64), ("cylinder across, cut", 1)]
VERTICES = [4, 16, 64, 256]


def counted(*words):
    with tempfile.NamedTemporaryFile() as out:
        command = ["valgrind", "--tool=callgrind", f"--callgrind-out-file={out.name}", "target/release/counts"]
        done = subprocess.run(command + [str(word) for word in words], capture_output=True, text=True, check=True)
    return int(re.search(r"Collected : (\d+)", done.stderr).group(1))


print("| call | vertices | Rust, libm's hypot | Rust, exact hypot | port | port / Rust with libm |")
print("|---|---:|---:|---:|---:|---:|")
for call, (name, calls) in enumerate(CALLS):
    for vertices in VERTICES:
        libm, exact, port = [(counted(call, vertices, way, calls) - counted(call, vertices, way, 0)) / calls for way in range(3)]
        print(f"| {name} | {vertices} | {libm:,.0f} | {exact:,.0f} | {port:,.0f} | {port / libm:.2f} |", flush=True)
