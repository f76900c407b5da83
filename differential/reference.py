#!/usr/bin/env python3
"""Makes a cargo package of the reference, the Rust of xara-phy, with 01's stand-ins.

    python3 differential/reference.py DOCS_SRC [OUT]

DOCS_SRC holds crates/xara-phy/src. OUT is target/reference of this repository unless given.
Then, inside OUT: cargo build --release --offline. A program put at OUT/src/bin is built with it.

The reference is read when this runs and none of it is kept here. Each edit has a name and must
match as often as it says, once unless it says more: if the reference changes, this stops.
"""

import re
import sys
from pathlib import Path

HERE = Path(__file__).resolve().parent
REGISTRY = Path("/usr/share/cargo/registry")

MANIFEST = """[package]
name = "reference"
version = "0.0.0"
edition = "2024"
publish = false

[dependencies]
num-complex = "=0.4.0"
"""

# Debian's packages stand in for the registry, so that nothing is fetched.
CARGO_CONFIG = f"""[source.crates-io]
replace-with = "debian"

[source.debian]
directory = "{REGISTRY}"
"""


class Mismatch(Exception):
    pass


def times(count, wanted, what):
    if count != wanted:
        raise Mismatch(f"'{what}' found {count} times, not {wanted}")


def swap(old, new, wanted=1):
    def edit(text):
        times(text.count(old), wanted, old)
        return text.replace(old, new)

    return edit


def after(old, new):
    return swap(old, old + new)


def before(old, new):
    return swap(old, new + old)


def drop_line(start):
    def edit(text):
        lines = text.splitlines(keepends=True)
        times(sum(line.startswith(start) for line in lines), 1, start)
        return "".join(line for line in lines if not line.startswith(start))

    return edit


def body(function, new):
    """Gives a function another body; its own ends where its braces close."""

    def edit(text):
        head = f"fn {function}("
        times(text.count(head), 1, head)
        first = text.index("{", text.index(head))
        depth, end = 1, first + 1
        while depth > 0:
            depth += {"{": 1, "}": -1}.get(text[end], 0)
            end += 1
        return text[: first + 1] + "\n    " + new + "\n" + text[end - 1 :]

    return edit


def blocks(text):
    """The parts of a file between blank lines at its outermost level."""
    return re.split(r"\n\n(?=\S)", text)


def holds(part, name):
    return re.search(re.escape(name) + r"\b", part) is not None


def only(*names):
    def edit(text):
        for name in names:
            times(sum(holds(part, name) for part in blocks(text)), 1, name)
        return "\n\n".join(part for part in blocks(text) if any(holds(part, name) for name in names)) + "\n"

    return edit


def without(*names):
    def edit(text):
        for name in names:
            times(sum(holds(part, name) for part in blocks(text)), 1, name)
        return "\n\n".join(part for part in blocks(text) if not any(holds(part, name) for name in names))

    return edit


def top(new):
    return lambda text: new + "\n" + text


def bottom(new):
    return lambda text: text + "\n" + new + "\n"


# Taken as they are.
WHOLE = ["constellation.rs", "fec.rs", "rnd.rs", "fm/level.rs", "hf/level.rs"]

NORM = "use crate::stand_ins::Norm;"
WAVE = "&(dyn Fn(f32) -> (f64, f64) + Sync)"
HAND = "&mut dyn FnMut(&mut Vec<(usize, Vec<Complex64>)>)"

# Name, file, edit; in this order.
EDITS = [
    # 01's stand-ins.
    ("norm: dsp, in scope", "dsp.rs", top(NORM)),
    ("norm: dsp", "dsp.rs", swap(".norm()", ".root_norm()")),
    ("norm: eq, in scope", "eq.rs", top(NORM)),
    ("norm: eq", "eq.rs", swap(".norm()", ".root_norm()", 2)),
    ("norm: snr, in scope", "hf/rx/snr.rs", top("use crate::stand_ins::{self, Norm};")),
    ("norm: snr", "hf/rx/snr.rs", swap(".norm()", ".root_norm()", 2)),
    ("rot: takes the book", "hf/rx/mod.rs", swap("f_hz: f64)", "f_hz: f64, book: &[Complex64])")),
    (
        "rot: reads the book",
        "hf/rx/mod.rs",
        body("rot", "(0..n).map(move |k| book[(f_hz as i64 * (n0 + k as i64)).rem_euclid(3000) as usize])"),
    ),
    ("rot: the filter's book", "hf/rx/psk.rs", swap("c.fc)", "c.fc, &self.book)")),
    ("rot: the engine has a book", "hf/rx/psk.rs", before("hold: Hold<()>,", "book: Vec<Complex64>,\n    ")),
    ("rot: no book at first", "hf/rx/psk.rs", before("hold: Hold::new(", "book: Vec::new(),\n            ")),
    ("drift: lent rows", "hf/rx/psk.rs", swap("super::rot(a, seg.len(), c.fc + df)", "c.drift.iter().copied()")),
    ("drift: a carrier has a row", "hf/rx/psk.rs", after("marker_syms: Vec<usize>,", "\n    drift: Vec<Complex64>,")),
    ("drift: no row at first", "hf/rx/psk.rs", after("phasors: p,", "\n                    drift: Vec::new(),")),
    (
        "drift: used when rows are lent",
        "hf/rx/psk.rs",
        swap("df.abs() > 1.0 { df }", "!self.carriers[0].drift.is_empty() { 1.0 }"),
    ),
    ("wave: the cosine", "hf/psk.rs", swap("f64::from(p).cos()", "wave(p).0")),
    ("wave: the sine", "hf/psk.rs", swap("f64::from(p).sin()", "wave(p).1")),
    ("wave: a carrier takes it", "hf/psk.rs", swap("hi: &[f64])", f"hi: &[f64], wave: {WAVE})")),
    ("wave: handed to a carrier", "hf/psk.rs", swap("&hp, &hi)", "&hp, &hi, wave)")),
    ("wave: modulate takes it", "hf/psk.rs", after("FnMut(u32) -> u32,", f"\n    wave: {WAVE},")),
    ("soft bits: every alphabet to the demapper", "demap.rs", swap("cst.len() > 2 * CAND", "true")),
    ("median: the turn", "hf/rx/snr.rs", swap("Complex64::from_polar(1.0, -s.arg())", "stand_ins::turn_back(s)")),
    (
        "median: the answer",
        "hf/rx/snr.rs",
        before("10.0 * lg(64.0", "median(&v)\n}\n\npub fn decibels(median: f64, l: &Level, k_db: f64) -> f64 {\n    "),
    ),
    ("median: decibels by themselves", "hf/rx/snr.rs", swap("lg(median(&v))", "lg(median)")),
    # Results that the reference has and drops.
    ("rows: modulate hands them out", "hf/psk.rs", after("FnMut(u32) -> u32,", f"\n    hand: {HAND},")),
    ("rows: may be changed", "hf/psk.rs", swap("let xs: Vec<(", "let mut xs: Vec<(")),
    ("rows: before the audio", "hf/psk.rs", before("let sigs =", "hand(&mut xs);\n    ")),
    ("metric: of a release", "hf/rx/psk.rs", swap("Some((t, _, ()))", "Some((t, metric, ()))")),
    ("metric: goes with it", "hf/rx/psk.rs", after("hint: Hint::Psk", ", metric")),
    ("metric: has a place", "hf/rx/receiver.rs", after("pub hint: Hint,", "\n    pub metric: f64,")),
    ("g: its type", "eq.rs", swap("usize)>) -> f64", "usize)>) -> (f64, f64)")),
    ("g: beside the variance", "eq.rs", swap("(mk.iter()", "(g, (mk.iter()")),
    ("g: closing", "eq.rs", after(".max(1e-3)", ")")),
    ("g: taken", "hf/rx/psk.rs", swap("let nvar =", "let undivided = ds.clone();\n        let (g, nvar) =")),
    (
        "reading: kept",
        "hf/rx/psk.rs",
        swap(
            "dec.decode(self.record, &llr)",
            "dec.keep(crate::keeper::Kept { soft: llr, pilot_sum: cands[i].1, g, nvar, undivided, steps: ds })",
        ),
    ),
    # What the missing files and crates would have to give.
    ("no transforms: dsp", "dsp.rs", drop_line("use rustfft")),
    ("no transforms: windows", "dsp.rs", without("pub struct Window", "impl Window")),
    ("no transforms: ofdm's rates", "ofdm.rs", only("pub const NFFT")),
    ("no transforms: pilots", "hf/ofdm.rs", only("pub const PILOT_PERIOD")),
    ("no turbo decoder", "decode.rs", only("struct FrameOut")),
    ("no turbo decoder: the keeper", "decode.rs", bottom("pub use crate::keeper::Keeper as FrameDecoder;")),
    ("no blind search", "hf/rx/mod.rs", drop_line("pub mod blind")),
    ("no control", "hf/rx/mod.rs", drop_line("pub mod ctrl")),
    ("no front end", "hf/rx/mod.rs", drop_line("pub mod frontend")),
    ("no FSK", "hf/rx/mod.rs", drop_line("pub mod fsk")),
    ("no OFDM", "hf/rx/mod.rs", drop_line("pub mod ofdm")),
    ("no OFDM: context", "hf/rx/receiver.rs", swap("&'a [Stft]", "&'a [()]")),
    (
        "records of the receiver",
        "hf/rx/receiver.rs",
        only("struct Ctx", "struct Detection", "enum Hint", "struct Decoded"),
    ),
    ("their names", "hf/rx/receiver.rs", top("use super::*;\nuse crate::{dsp::Track, hf::level::Record};")),
    # A child module sees the engine's fields without any change of theirs; a hold's are another module's.
    ("adaptor", "hf/rx/psk.rs", bottom("pub mod adaptor;")),
    ("adaptor: a hold's candidate", "dsp.rs", before("best: Option<(i64, f64, X)>", "pub(crate) ")),
    ("adaptor: a hold's block", "dsp.rs", before("block: i64,", "pub(crate) ")),
    ("adaptor: markers from a state", "dat.rs", before("fn psk_other(", "pub(crate) ")),
]


def stop(message):
    sys.exit(f"reference.py: {message}")


def write(path, text):
    """Leaves an equal file alone, so that cargo doesn't build it again."""
    path.parent.mkdir(parents=True, exist_ok=True)
    if not path.exists() or path.read_text() != text:
        path.write_text(text)


def edited(source):
    names = sorted(set(WHOLE) | {file for _, file, _ in EDITS})
    files = {}
    for name in names:
        if not (source / name).is_file():
            stop(f"{source / name} isn't there")
        files[name] = (source / name).read_text()
    for name, file, edit in EDITS:
        try:
            files[file] = edit(files[file])
        except Mismatch as fault:
            stop(f"edit '{name}' of {file}: {fault}")
    return files


def main():
    if len(sys.argv) not in (2, 3):
        stop("usage: reference.py DOCS_SRC [OUT]")
    docs = Path(sys.argv[1])
    out = Path(sys.argv[2]) if len(sys.argv) == 3 else HERE.parent / "target" / "reference"
    source = docs / "crates" / "xara-phy" / "src"
    if not source.is_dir():
        stop(f"no reference at {docs}: {source} isn't there")
    if not (REGISTRY / "num-complex-0.4.0").is_dir():
        stop(f"no num-complex 0.4.0 in {REGISTRY} (Debian: librust-num-complex-dev)")
    for name, text in edited(source).items():
        write(out / "src" / name, text)
    write(out / "src" / "lib.rs", (HERE / "modules.rs").read_text())
    write(out / "src" / "hf" / "rx" / "psk" / "adaptor.rs", (HERE / "adaptor.rs").read_text())
    write(out / "Cargo.toml", MANIFEST)
    write(out / ".cargo" / "config.toml", CARGO_CONFIG)


if __name__ == "__main__":
    main()
