//! A frame that is sent, fed, released, located and read.
use crate::signal::{distance, times, Frame, SENT_AT};
use dimpstea::{meter, raw, Complex, Layout};

#[test]
fn every_layout_reads_what_was_sent() {
    for (seed, (bandwidth, record)) in (1..).zip(Layout::ALL) {
        let frame = Frame::new(bandwidth, record, seed);
        let (receiver, detection) = frame.received(&frame.samples(), 1000);
        let reading = receiver.read(&frame.tables, detection.position, &[]).unwrap();
        let read = reading.payload(&frame.layout).unwrap();
        assert_eq!(read, frame.payload, "{bandwidth}/{record}");
        assert_eq!(meter(&frame.layout, &frame.payload, &read), Ok(0), "{bandwidth}/{record}");
        assert!(reading.located.t.abs_diff(SENT_AT) <= 1, "{bandwidth}/{record}: {:?}", reading.located);
        assert!(reading.g > 0.0 && reading.nvar >= 1e-3 && reading.median >= 0.0);
    }
}

#[test]
fn a_changed_bit_is_metered() {
    let frame = Frame::new(500, 4, 2);
    let (receiver, detection) = frame.received(&frame.samples(), 3000);
    let mut reading = receiver.read(&frame.tables, detection.position, &[]).unwrap();
    reading.soft[17] = -reading.soft[17];
    let read = reading.payload(&frame.layout).unwrap();
    assert_eq!(meter(&frame.layout, &frame.payload, &read), Ok(1));
    reading.soft.pop();
    assert_eq!(reading.payload(&frame.layout).unwrap_err().number(), 11);
}

#[test]
fn locating_finds_the_frame_that_is_read() {
    let frame = Frame::new(2300, 5, 3);
    let (receiver, detection) = frame.received(&frame.samples(), 2000);
    for t0 in detection.position - 5..=detection.position + 5 {
        let located = receiver.locate(&frame.tables, t0).unwrap();
        assert_eq!(receiver.read(&frame.tables, t0, &[]).unwrap().located, located);
        assert!(located.t.abs_diff(t0) <= 3);
    }
    let located = receiver.locate(&frame.tables, detection.position).unwrap();
    assert!(located.chi >= detection.metric);
    assert_eq!(located.t_end(&frame.layout), located.t + 21 + 32 * 375);
}

/// The received step at each symbol is nearest to the step sent there, so the packing is known too.
#[test]
fn steps_stand_at_their_symbols() {
    let frame = Frame::new(2750, 7, 4);
    let (receiver, detection) = frame.received(&frame.samples(), 3965);
    let reading = receiver.read(&frame.tables, detection.position, &[]).unwrap();
    let (layout, steps) = (&frame.layout, &reading.steps);
    for carrier in 0..layout.carriers {
        assert_eq!(steps.row(carrier).len(), layout.nsym - 1);
        let point = |symbol: usize| {
            let z = times(frame.sending.row(carrier)[8 + symbol], frame.tables.phasors[carrier * layout.nsym + symbol]);
            Complex::new(z.re / 178.0, z.im / 178.0)
        };
        for symbol in 1..layout.nsym {
            let before = point(symbol - 1);
            let sent = times(point(symbol), Complex::new(before.re, -before.im));
            assert!(distance(steps.at(carrier, symbol), sent) < 0.7, "carrier {carrier}, symbol {symbol}");
        }
    }
    let rest = &steps.scratch()[layout.carriers * (layout.nsym - 1)..];
    assert_eq!(rest, vec![Complex::ZERO; layout.carriers]);
}

#[test]
#[should_panic = "a carrier of the layout"]
fn there_is_no_row_past_the_last_carrier() {
    let frame = Frame::new(500, 4, 5);
    let (receiver, detection) = frame.received(&frame.samples(), 3000);
    let reading = receiver.read(&frame.tables, detection.position, &[]).unwrap();
    reading.steps.row(2);
}

/// The calls as they are, with every length in doubles.
#[test]
fn raw_lengths_are_doubles() {
    let frame = Frame::new(500, 14, 6);
    let (receiver, detection) = frame.received(&frame.samples(), 3000);
    let reading = receiver.read(&frame.tables, detection.position, &[]).unwrap();
    let (state, phasors) = (receiver.state(), dimpstea::flat(&frame.tables.phasors));
    let read = |scratch: usize, out: usize, result: usize| {
        let (mut scratch, mut out, mut result) = (vec![0.5; scratch], vec![0.5; out], vec![0.5; result]);
        let mut t = 77;
        let answer = raw::read(
            500,
            14,
            &frame.tables.markers,
            phasors,
            &state.numbers,
            state.metric,
            receiver.memory(),
            detection.position,
            &[],
            &mut scratch,
            &mut out,
            &mut t,
            &mut result,
        );
        (answer.map_err(|r| r.number()), scratch, out, t, result)
    };
    let (answer, scratch, out, t, result) = read(2 * 2 * 450, 1724, 6);
    assert_eq!(answer, Ok(()));
    assert_eq!((&scratch[..], &out), (dimpstea::flat(reading.steps.scratch()), &reading.soft));
    assert_eq!(t, reading.located.t);
    let sum = reading.located.pilot_sum;
    assert_eq!(result, [reading.located.chi, sum.re, sum.im, reading.g, reading.nvar, reading.median]);
    for (scratch, out, result) in [(2 * 2 * 450 - 1, 1724, 6), (2 * 2 * 450, 1723, 6), (2 * 2 * 450, 1724, 7)] {
        let untouched = (Err(11), vec![0.5; scratch], vec![0.5; out], 77, vec![0.5; result]);
        assert_eq!(read(scratch, out, result), untouched);
    }
}
