//! A silent frame: condition 24.
use crate::signal::{tables, Random};
use dimpstea::{flat, raw, rows, Complex, Layout, Receiver, Refusal, Tables};

fn silent(layout: &Layout, tables: &Tables) -> Receiver {
    let book = rows::turn_book();
    let mut receiver = Receiver::open(layout, tables, 0, &book).unwrap();
    for _ in 0..5 {
        assert_eq!(receiver.feed(tables, &book, &[Complex::ZERO; 4000]), Ok(None));
    }
    receiver
}

#[test]
fn a_silent_frame_has_no_gain() {
    for (bandwidth, record) in Layout::ALL {
        let layout = Layout::choose(bandwidth, record).unwrap();
        let tables = tables(&layout, &mut Random(60));
        let receiver = silent(&layout, &tables);
        let located = receiver.locate(&tables, 500).unwrap();
        // All seven are alike, and the first is taken.
        assert_eq!((located.t, located.chi, located.pilot_sum), (497, 0.0, Complex::ZERO));
        assert!(located.drift_rows(&layout).is_empty());
        for drift in [Vec::new(), rows::drift(&layout, located.t, 3.0)] {
            let refusal = receiver.read(&tables, 500, &drift).unwrap_err();
            assert_eq!(refusal.to_string(), "refused 24: gain not finite and above 0");
            let undivided = refusal.undivided.as_ref().expect("the undivided steps");
            assert_eq!(undivided.scratch(), vec![Complex::ZERO; layout.scratch_len()]);
            assert_eq!(undivided.row(layout.carriers - 1).len(), layout.nsym - 1);
            assert_eq!(Refusal::from(refusal).number(), 24);
        }
    }
}

/// After 24 the scratch alone has changed.
#[test]
fn only_the_scratch_is_written() {
    let layout = Layout::choose(500, 4).unwrap();
    let tables = tables(&layout, &mut Random(61));
    let receiver = silent(&layout, &tables);
    let state = receiver.state();
    let (mut scratch, mut out, mut t, mut result) = (vec![0.5; 2 * 2 * 393], vec![0.5; 748], 77, [0.5; 6]);
    let answer = raw::read(
        500,
        4,
        &tables.markers,
        flat(&tables.phasors),
        &state.numbers,
        state.metric,
        receiver.memory(),
        500,
        &[],
        &mut scratch,
        &mut out,
        &mut t,
        &mut result,
    );
    assert_eq!(answer, Err(Refusal::new(24)));
    assert_eq!(scratch, vec![0.0; 2 * 2 * 393]);
    assert_eq!((out, t, result), (vec![0.5; 748], 77, [0.5; 6]));
}

/// A frame too loud for its steps to be counted: the undivided ones are there, and aren't zero.
#[test]
fn undivided_steps_are_as_received() {
    let layout = Layout::choose(500, 4).unwrap();
    let tables = tables(&layout, &mut Random(62));
    let mut receiver = silent(&layout, &tables);
    let mut memory = receiver.memory().to_vec();
    // A host's own memory: filtered values whose products are infinite.
    let part = 2 * (2 * layout.keep as usize + 4000);
    for carrier in 0..layout.carriers {
        let from = (1 + 3 * carrier) * part;
        memory[from..from + part].fill(1e200);
    }
    receiver = Receiver::resume(&layout, *receiver.state(), memory);
    let refusal = receiver.read(&tables, 500, &[]).unwrap_err();
    assert_eq!(refusal.refusal.number(), 24);
    let undivided = refusal.undivided.expect("the undivided steps");
    assert!(undivided.row(1).iter().all(|step| !(step.re.is_finite() && step.im.is_finite())));
}
