#!/usr/bin/env python3
"""Times `settle` on a script of 1,000 shows of 3,000 words each, beside a plain Rust program that only reads the same lines and parses their numbers.

    python3 bench/script.py crates/settle/out/settle

It builds the Rust program for release, makes the chart and the script, runs the two in turn, and prints the shortest time of each and their ratio.
"""
import pathlib
import struct
import subprocess
import sys
import tempfile
import time

N, WHOLE, TOP, SHOWS, TRIPLES, TURNS = 32, 10_000, 1_000_000_000, 1_000, 1_000, 15


def row():
    """Each section's row: 16 parts of 313 and 16 of 312."""
    return [313 if u < 16 else 312 for u in range(N)]


def chart():
    """The bytes of a chart of 32 sections of one band that all go on alike, discount 1/2."""
    body = struct.pack(">8H", 1, N, 1, 2, WHOLE, 16, 16 + N, 16 + N + 2 * N * N)
    return body + bytes(N) + struct.pack(f">{N * N}H", *(row() * N))


def pairing():
    """The words of a pairing of two sections: 1,000 triples, whose amounts add up to the two rows."""
    amounts = [[9 + (u == v) * (row()[u] - 9 * N) for v in range(N)] for u in range(N)]
    # 12 times: two cells to 0, and what they had to two others of the same rows and columns
    for k in range(N * N - TRIPLES >> 1):
        i, j = 2 * k % N, (2 * k + 1) % N
        u, v = (i + 4) % N, (j + 8) % N
        assert amounts[i][v] == amounts[j][u] == 9
        for a, b, more in (i, v, -9), (j, u, -9), (i, u, 9), (j, v, 9):
            amounts[a][b] += more
    words = [word for u in range(N) for v in range(N) if amounts[u][v] for word in (u, v, amounts[u][v])]
    assert len(words) == 3 * TRIPLES
    assert [sum(r) for r in amounts] == [sum(c) for c in zip(*amounts)] == row()
    return words


def script():
    """An upper draft of 1,000 claims at the top, each shown by that pairing, and entered."""
    pairs = [(s, t) for s in range(N) for t in range(N)][:SHOWS]
    words = " ".join(map(str, pairing()))
    lines = ["open upper", *(f"claim {s} {t} {TOP}" for s, t in pairs), "close"]
    return "\n".join(lines + [f"show {s} {t} {words}" for s, t in pairs] + ["enter", ""])


def shortest(commands, text):
    """The shortest time of each command on the text, in milliseconds, and what it prints; the commands take turns."""
    best, printed = [float("inf")] * len(commands), [b""] * len(commands)
    for _ in range(TURNS):
        for k, command in enumerate(commands):
            with open(text, "rb") as lines:
                start = time.perf_counter()
                printed[k] = subprocess.run(command, stdin=lines, capture_output=True, check=True).stdout
                best[k] = min(best[k], 1000 * (time.perf_counter() - start))
    return best, printed


def main():
    here = pathlib.Path(__file__).resolve().parent
    settle = pathlib.Path(sys.argv[1]).resolve()
    with tempfile.TemporaryDirectory() as folder:
        subprocess.run(["cargo", "build", "--release", "--quiet", "--offline", "--target-dir", folder], cwd=here, check=True)
        path, calls = pathlib.Path(folder) / "wide.chart", pathlib.Path(folder) / "wide.calls"
        path.write_bytes(chart())
        calls.write_text(script())
        (ours, plain), (answers, counts) = shortest([[settle, path, str(TOP)], [f"{folder}/release/numbers"]], calls)
        assert f"calls: {2 * SHOWS + 3} accepted, 0 refused".encode() in answers
        print(f"{SHOWS} shows of {3 * TRIPLES} words, {calls.stat().st_size} bytes; the shortest of {TURNS} runs each")
        print(f"plain Rust, which only parses: {plain:.1f} ms ({counts.decode().strip()})")
        print(f"settle, which weighs them all: {ours:.1f} ms")
        print(f"ratio: {ours / plain:.2f}")


if __name__ == "__main__":
    main()
