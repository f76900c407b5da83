//! Soft bits by time, by a case that can be told by hand, and through a reading.
use crate::signal::Frame;
use dimpstea::{by_carrier, by_time, raw, Complex, Layout, Refusal, Tables};

/// Carrier 0 has marks at symbols 5, 6, .., and carrier 1 one symbol later: symbol 5 has one cell, that of carrier 1.
fn tables(layout: &Layout) -> Tables {
    let row = |carrier| (0..layout.markers).map(move |k| (5 + k + carrier) as u16);
    let values: Vec<u16> = (0..layout.carriers).flat_map(row).collect();
    Tables::new(layout, &values, vec![Complex::ONE; layout.phasor_count()])
}

#[test]
fn cells_by_symbol_then_carrier() {
    let layout = Layout::choose(500, 5).expect("a PSK layout");
    let tables = tables(&layout);
    let soft: Vec<f64> = (0..1500).map(f64::from).collect();
    let timed = by_time(&layout, &tables, &soft).expect("n soft bits");
    // Symbols 1 to 4 of both carriers, each cell's two bits together; carrier 1 begins at 750.
    let first = [0, 1, 750, 751, 2, 3, 752, 753, 4, 5, 754, 755, 6, 7, 756, 757].map(f64::from);
    assert_eq!(timed[..16], first);
    // Symbol 5 is marked on carrier 0; symbols 6 to 22 on both; symbol 23 on carrier 1 alone.
    assert_eq!(timed[16..24], [758, 759, 8, 9, 10, 11, 760, 761].map(f64::from));
    assert_eq!(by_carrier(&layout, &tables, &timed), Ok(soft));
}

/// Bit patterns are kept, those of NaNs too.
#[test]
fn patterns_of_nans() {
    let layout = Layout::choose(2750, 10).expect("a PSK layout");
    let tables = tables(&layout);
    let soft: Vec<f64> = (1..=8944).map(|k| f64::from_bits(0xfff0_0000_0000_0000 | k)).collect();
    let timed = by_time(&layout, &tables, &soft).expect("n soft bits");
    let again = by_carrier(&layout, &tables, &timed).expect("n soft bits");
    assert!(again.iter().zip(&soft).all(|(a, b)| a.to_bits() == b.to_bits()));
}

#[test]
fn faults_1_to_5_and_11() {
    let layout = Layout::choose(500, 4).expect("a PSK layout");
    let tables = tables(&layout);
    let call = |hz, record, markers: &[u16], soft: usize, out: usize| {
        let (soft, mut written) = (vec![1.0; soft], vec![0.5; out]);
        let answers = [
            raw::by_time(hz, record, markers, &soft, &mut written),
            raw::by_carrier(hz, record, markers, &soft, &mut written),
        ];
        assert!(written.iter().all(|&x| x == 0.5));
        assert_eq!(answers[0], answers[1]);
        answers[0].err().map_or(0, Refusal::number)
    };
    let spoilt = |at: usize, value: u16| {
        let mut markers = tables.markers.clone();
        markers[at] = value;
        markers
    };
    assert_eq!(call(501, 4, &tables.markers, 748, 748), 1);
    assert_eq!(call(500, 7, &tables.markers, 748, 748), 2);
    assert_eq!(call(500, 4, &tables.markers[1..], 0, 0), 3);
    assert_eq!(call(500, 4, &spoilt(0, 4), 0, 748), 4);
    assert_eq!(call(500, 4, &spoilt(36, 1), 748, 0), 5);
    assert_eq!(call(500, 4, &tables.markers, 747, 748), 11);
    assert_eq!(call(500, 4, &tables.markers, 748, 749), 11);
}

#[test]
fn of_a_reading() {
    let frame = Frame::new(500, 4, 73);
    let (receiver, detection) = frame.received(&frame.samples(), 4000);
    let reading = receiver.read(&frame.tables, detection.position, &[]).expect("a frame in hand");
    let timed = reading.soft_by_time(&frame.layout, &frame.tables).expect("n soft bits");
    assert_eq!(by_carrier(&frame.layout, &frame.tables, &timed), Ok(reading.soft));
}
