//! Frames that are some Hz too high or too low, read with drift rows.
use crate::signal::{distance, shifted, Frame};
use dimpstea::{flat, rows, Complex, Layout, Located};
use std::f64::consts::TAU;

#[test]
fn a_shifted_frame_is_read_with_the_rows_of_its_residual() {
    let layouts = [(500, 4, 9.0), (500, 6, -7.5), (2300, 9, 5.0), (2750, 10, -4.0)];
    for (seed, (bandwidth, record, hz)) in (20..).zip(layouts) {
        let frame = Frame::new(bandwidth, record, seed);
        let (receiver, detection) = frame.received(&shifted(&frame.samples(), hz), 3965);
        let located = receiver.locate(&frame.tables, detection.position).unwrap();
        assert!((located.residual_hz() - hz).abs() < 0.5, "{hz} Hz: residual {}", located.residual_hz());
        let drift = located.drift_rows(&frame.layout);
        assert_eq!(drift.len(), frame.layout.drift_len());
        let reading = receiver.read(&frame.tables, detection.position, &drift).unwrap();
        assert_eq!(reading.located, located);
        assert_eq!(reading.payload(&frame.layout).unwrap(), frame.payload, "{bandwidth}/{record}");
    }
}

/// Rows of the true offset undo it: the steps are those of the frame that was never shifted. Rows of the other sign,
/// or none, are further off.
#[test]
fn rows_undo_the_shift() {
    let frame = Frame::new(2300, 8, 30);
    let (plain, at) = frame.received(&frame.samples(), 2000);
    let (high, found) = frame.received(&shifted(&frame.samples(), 6.0), 2000);
    let expected = plain.read(&frame.tables, at.position, &[]).unwrap();
    let t = high.locate(&frame.tables, found.position).unwrap().t;
    assert_eq!(t, expected.located.t);
    let error = |df: Option<f64>| {
        let drift = df.map_or(Vec::new(), |df| rows::drift(&frame.layout, t, df));
        let read = high.read(&frame.tables, found.position, &drift).unwrap();
        let pairs = read.steps.scratch().iter().zip(expected.steps.scratch());
        pairs.map(|(&a, &b)| distance(a, b)).fold(0.0, f64::max)
    };
    assert!(error(Some(6.0)) < 1e-6, "{}", error(Some(6.0)));
    assert!(error(None) > 1e-3);
    assert!(error(Some(-6.0)) > error(None));
}

/// Each row is the reference's `rot` from position t - delay - 1 on.
#[test]
fn rows_turn_each_position() {
    let layout = Layout::choose(500, 6).unwrap();
    let (t, df) = (5000, 2.5);
    let rows = rows::drift(&layout, t, df);
    let row_len = 21 + 32 * (layout.nsym - 1) + 2 * 64 + 2;
    assert_eq!(rows.len(), 3 * row_len);
    for (carrier, fc) in [1320.0, 1500.0, 1680.0].into_iter().enumerate() {
        for i in [0, 1, 777, row_len - 1] {
            let angle = -TAU * (fc + df) * (t as f64 - 64.0 - 1.0 + i as f64) / 3000.0;
            assert!(distance(rows[carrier * row_len + i], Complex::at_angle(angle)) < 1e-9);
        }
    }
    assert!(flat(&rows).iter().all(|part| part.abs() <= 1.0));
}

/// The residual is the angle over a symbol of 32 samples, and 0 unless it exceeds 1 Hz in size.
#[test]
fn residuals_up_to_one_hertz_are_none() {
    let layout = Layout::choose(500, 4).unwrap();
    let at = |hz: f64| {
        let z = Complex::at_angle(TAU * 32.0 * hz / 3000.0);
        Located { t: 4000, chi: 100.0, pilot_sum: Complex::new(36.0 * z.re, 36.0 * z.im) }
    };
    for hz in [-46.0, -1.01, 1.01, 30.0] {
        assert!((at(hz).residual_hz() - hz).abs() < 1e-9);
        assert_eq!(at(hz).drift_rows(&layout).len(), layout.drift_len());
    }
    for hz in [-0.99, 0.0, 0.99] {
        assert_eq!(at(hz).residual_hz(), 0.0);
        assert!(at(hz).drift_rows(&layout).is_empty());
    }
    let silent = Located { t: 4000, chi: 0.0, pilot_sum: Complex::ZERO };
    assert_eq!(silent.residual_hz(), 0.0);
    let spoilt = Located { pilot_sum: Complex::new(f64::NAN, 0.0), ..silent };
    assert_eq!(spoilt.residual_hz(), 0.0);
    assert_eq!(Located { t: u64::MAX, ..silent }.t_end(&layout), u64::MAX);
}

/// Condition 23: rows of another length, or with a part outside -1 to 1.
#[test]
fn wrong_rows_are_refused() {
    let frame = Frame::new(500, 5, 31);
    let (receiver, detection) = frame.received(&frame.samples(), 2500);
    let t = receiver.locate(&frame.tables, detection.position).unwrap().t;
    let good = rows::drift(&frame.layout, t, 0.0);
    let refused = |drift: &[Complex]| {
        let refusal = receiver.read(&frame.tables, detection.position, drift).unwrap_err();
        assert_eq!(refusal.undivided, None);
        refusal.refusal.number()
    };
    assert!(receiver.read(&frame.tables, detection.position, &good).is_ok());
    assert_eq!(refused(&good[1..]), 23);
    for part in [1.000_001, -1.000_001, f64::NAN] {
        let mut drift = good.clone();
        drift.last_mut().unwrap().im = part;
        assert_eq!(refused(&drift), 23);
    }
    assert_eq!(refused(&rows::drift(&frame.layout, t, f64::NAN)), 23);
}
