//! The residual in thirty-seconds of a hertz.
use dimpstea::{Complex, Located, Residual};
use std::f64::consts::TAU;

fn of(re: f64, im: f64) -> (u32, i32) {
    let residual = Residual::of(Complex::new(re, im)).unwrap();
    assert_eq!(residual.hz() * 32.0, f64::from(residual.thirty_seconds));
    (residual.index, residual.thirty_seconds)
}

#[test]
fn on_the_axes_and_beside_them() {
    // The least truncated part is 1.
    let least = 1.0 / 1_048_576.0;
    assert_eq!(of(1.0, 0.0), (0, 0));
    assert_eq!(of(0.0, 1.0), (750, 750));
    assert_eq!(of(-1.0, 0.0), (1500, -1500));
    assert_eq!(of(0.0, -1.0), (2250, -750));
    assert_eq!(of(64.0, least), (0, 0));
    assert_eq!(of(64.0, -least), (2999, -1));
    assert_eq!(of(-64.0, least), (1499, 1499));
    assert_eq!(of(-64.0, -least), (1500, -1500));
    assert_eq!(of(-least, 64.0), (750, 750));
    assert_eq!(of(least, 64.0), (749, 749));
}

#[test]
fn parts_are_truncated_towards_zero() {
    let least = 1.0 / 1_048_576.0;
    assert_eq!(of(1.0, -0.999 * least), (0, 0));
    assert_eq!(of(-0.999 * least, -1.0), (2250, -750));
    assert_eq!(of(0.999 * least, least), (750, 750));
}

#[test]
fn refused_25() {
    let least = 1.0 / 1_048_576.0;
    let refused = |re, im| Residual::of(Complex::new(re, im)).err().map_or(0, |refusal| refusal.number());
    assert_eq!(refused(0.0, -0.0), 25);
    assert_eq!(refused(0.999 * least, -0.999 * least), 25);
    assert_eq!(refused(least, 0.0), 0);
    assert_eq!(refused(0.0, -least), 0);
    for large in [64.000_000_000_000_01, f64::INFINITY, f64::NEG_INFINITY, f64::NAN] {
        assert_eq!(refused(large, 1.0), 25);
        assert_eq!(refused(1.0, -large), 25);
    }
    assert_eq!(refused(64.0, -64.0), 0);
}

#[test]
fn of_a_located_frame() {
    let located = Located { t: 0, chi: 30.0, pilot_sum: Complex::at_angle(0.01) };
    let residual = located.residual().unwrap();
    assert_eq!(residual.index, 4);
    assert_eq!(located.residual_hz(), 0.0, "below 1 Hz, so no drift rows");
}

/// The table's numbers, printed again: 2^30 times the cosine of k / 3,000 of a full turn, rounded. None lies nearer than
/// 0.0004 to the middle between two whole numbers, so that any cosine of f64 gives the same.
fn printed() -> Vec<String> {
    let number = |k: u32| f64::from(1 << 30) * (TAU * f64::from(k) / 3000.0).cos();
    (0..=750).map(|k| format!("{}", number(k).round() as u64)).collect()
}

#[test]
fn the_table_is_the_one_printed() {
    let source = include_str!("../../../crates/residual/src/table.rt");
    let (_, table) = source.split_once("= [").unwrap();
    let numbers: Vec<&str> = table.trim_end_matches(['\n', ';', ']']).split(',').map(str::trim).collect();
    assert_eq!(numbers[..751], printed());
    assert_eq!(numbers[751..], [""]);
}
