//! The calls of document 02, on both sides or beside what the reference does in their place.
use crate::{cpu, inputs, RUNS};
use dimpstea::{raw, Complex, Layout};
use reference::{adaptor, Complex64};
use std::f64::consts::TAU;
use std::hint::black_box;

/// Calls of a run.
const CALLS: usize = 2_000;

/// Prints a call's nanoseconds on each side and their ratio; a side that has nothing to do has no run.
fn row<'a>(name: &str, of: &str, port: &'a mut (dyn FnMut() + 'a), reference: Option<&'a mut (dyn FnMut() + 'a)>) {
    let mut sides = [Some(port), reference];
    let mut times = [const { Vec::new() }; 2];
    for _ in 0..RUNS {
        for (side, times) in sides.iter_mut().zip(&mut times) {
            times.extend(side.as_mut().map(|run| cpu::timed(run)));
        }
    }
    let [port, reference] = times.map(|t| (!t.is_empty()).then(|| 1e9 * cpu::median(t) / CALLS as f64));
    let port = port.expect("the port's side");
    let (rust, ratio) = reference.map_or(("-".into(), "-".into()), |r| (format!("{r:.0}"), format!("{:.2}", port / r)));
    println!("| {name} | {of} | {port:.0} | {rust} | {ratio} |");
}

/// Steps around the unit circle, off it by up to a tenth.
fn steps() -> Vec<Complex> {
    (0..CALLS)
        .map(|i| {
            let (size, turn) = (0.9 + 0.2 * inputs::spread(2 * i), TAU * inputs::spread(2 * i + 1));
            Complex::new(size * turn.cos(), size * turn.sin())
        })
        .collect()
}

fn alphabets() {
    let steps = steps();
    let same: Vec<Complex64> = steps.iter().map(|z| Complex64::new(z.re, z.im)).collect();
    for bits in 1..=5 {
        let (size, mut out) = (1 << bits, [0.0; 5]);
        let of = format!("{size} points");
        row(
            "soft bits of a step",
            &of,
            &mut || {
                for &z in black_box(&steps) {
                    raw::soft_step(size, z, 0.5, &mut out[..bits]).expect("soft bits");
                    black_box(&out);
                }
            },
            Some(&mut || {
                black_box(adaptor::soft_bits(bits, black_box(&same), 0.5));
            }),
        );
        row(
            "nearest point of a step",
            &of,
            &mut || {
                for &z in black_box(&steps) {
                    black_box(dimpstea::nearest_point(size, z).expect("a point"));
                }
            },
            Some(&mut || {
                for &z in black_box(&same) {
                    black_box(adaptor::nearest(bits, z));
                }
            }),
        );
    }
}

fn layouts(l: &Layout) {
    let of = format!("{}/{}", l.bandwidth, l.record);
    let (tables, reference) = (inputs::tables(l), inputs::reference_layout(l));
    let (soft, mut timed) = (vec![1.0; l.payload], vec![0.0; l.payload]);
    row(
        "soft bits by time",
        &of,
        &mut || {
            for _ in 0..CALLS {
                raw::by_time(l.bandwidth, l.record, &tables.markers, black_box(&soft), &mut timed).expect("an order");
                black_box(&timed);
            }
        },
        None,
    );
    let mut drawn = vec![0; tables.markers.len()];
    row(
        "a marker table drawn",
        &of,
        &mut || {
            for i in 0..CALLS {
                raw::draw_markers(l.bandwidth, l.record, &mut (i as u32), 4096, &mut drawn).expect("a table");
                black_box(&drawn);
            }
        },
        Some(&mut || {
            for i in 0..CALLS {
                black_box(reference.drawn_markers(i as u32));
            }
        }),
    );
}

fn shown() {
    let sums = steps();
    row(
        "residual of a pilot sum",
        "any",
        &mut || {
            for z in black_box(&sums) {
                black_box(raw::residual(z.re, z.im).expect("a residual"));
            }
        },
        Some(&mut || {
            for z in black_box(&sums) {
                black_box(z.im.atan2(z.re) * (3000.0 / 32.0) / TAU);
            }
        }),
    );
    row(
        "decibels of a median",
        "any",
        &mut || {
            let mut tenths = 0;
            for z in black_box(&sums) {
                raw::decibels(z.re.abs() + 1e-3, &mut tenths).expect("decibels");
                black_box(tenths);
            }
        },
        Some(&mut || {
            for z in black_box(&sums) {
                black_box(20.0 * (z.re.abs() + 1e-3).log10());
            }
        }),
    );
}

pub fn report() {
    println!("| call | of | port, ns | Rust, ns | ratio |\n|---|---|---|---|---|");
    alphabets();
    inputs::THREE.map(inputs::layout).iter().for_each(layouts);
    shown();
}
