#!/usr/bin/env python3
"""Real time on one core: for each layout, seconds of audio received per second of CPU, and the memory used.

Usage: station/realtime.py [SECONDS]     (about so many seconds of audio each; default 120)
"""
import os
import pathlib
import random
import subprocess
import sys
import tempfile

ROOT = pathlib.Path(__file__).resolve().parent.parent
PROGRAM = ROOT / "target/cargo/release/dimpstea"


def run(words):
    """Runs the program, and answers with its CPU seconds, its greatest memory in kB, and its lines."""
    with tempfile.TemporaryFile() as out:
        child = subprocess.Popen([PROGRAM, *words], stdout=out, stderr=subprocess.DEVNULL)
        _, status, used = os.wait4(child.pid, 0)
        if status != 0:
            sys.exit(f"realtime.py: {' '.join(map(str, words))} ended with {os.waitstatus_to_exitcode(status)}")
        out.seek(0)
        return used.ru_utime + used.ru_stime, used.ru_maxrss, out.read().decode().splitlines()


def received(wav, frames, words):
    """The least CPU seconds of three receptions, and the greatest memory."""
    runs = [run(["receive", wav, "--threads", "1", *words]) for _ in range(3)]
    if any(len(lines) != frames for _, _, lines in runs):
        sys.exit(f"realtime.py: {frames} frames were sent, and {[len(lines) for _, _, lines in runs]} found")
    return min(seconds for seconds, _, _ in runs), max(memory for _, memory, _ in runs)


def main():
    seconds = float(sys.argv[1]) if len(sys.argv) > 1 else 120.0
    subprocess.run([ROOT / "dimpstea", "--version"], check=True, stdout=subprocess.DEVNULL)
    layouts = [line.split()[:3] for line in run(["layouts"])[2][1:]]
    print("| layout | audio seconds a second | memory, MB |\n|---|---|---|")
    with tempfile.TemporaryDirectory() as folder:
        payload, wav = pathlib.Path(folder, "payload"), pathlib.Path(folder, "out.wav")
        chance = random.Random(1)
        for layout, bits, frame in layouts:
            frames = max(1, round(seconds / float(frame)))
            payload.write_text("".join(chance.choice("01") for _ in range(frames * int(bits))))
            run(["send", "--layout", layout, payload, "-o", wav])
            length = (wav.stat().st_size - 44) / 96000
            used, memory = received(wav, frames, ["--layout", layout])
            print(f"| {layout} | {length / used:,.0f} | {memory / 1000:.1f} |", flush=True)
        used, memory = received(wav, frames, ["--all-layouts"])
        print(f"| all fifteen at once | {length / used:,.0f} | {memory / 1000:.1f} |")


if __name__ == "__main__":
    main()
