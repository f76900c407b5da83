//! Each refusal's words.
use dimpstea::Refusal;

const WORDS: [&str; 26] = [
    "bandwidth not 500, 2300, 2750, or record not 1 to 17",
    "record isn't PSK there",
    "marker table length",
    "marker value outside 5 to spf - 4, or twice on a carrier",
    "a flag not 1 where a value sets it or not 0 elsewhere",
    "phasor count not nc x nsym",
    "phasor part not finite, or squared size outside 0.99 to 1.01",
    "frames not 1 to 4",
    "payload length, or a byte above 1",
    "count of draws, or one not below the alphabet size",
    "an out or scratch buffer of wrong length",
    "symbol row length, part not finite or above 256 in size",
    "window above 4,096 or past the end",
    "wave row length or part outside -1 to 1; phase outside 0 to f32 TAU",
    "start outside 0 to 2^40",
    "turn book length, or part outside -1 to 1",
    "memory length, or a state that isn't a receiver's of this layout",
    "above 4,000 samples, or half a sample",
    "first sample's number not the sample end, or end past 2^48",
    "sample part not finite or above 2^20 in size",
    "hold, dead, offered or held position outside 0 to 2^48, or a metric not finite",
    "the frame isn't in hand",
    "drift row length or part outside -1 to 1",
    "gain not finite and above 0",
    "pilot sum with a part not finite or above 64 in size, or whose truncated parts are both zero",
    "median not from 0 to 2, or M is 0",
];

#[test]
fn each_refusal_says_its_condition() {
    for (number, words) in (1..).zip(WORDS) {
        let refusal = Refusal::new(number);
        assert_eq!((refusal.number(), refusal.meaning()), (number, words));
        assert_eq!(refusal.to_string(), format!("refused {number}: {words}"));
    }
    for (number, words) in [
        (29, "a generator's state above 24 bits, or a draw limit outside 1 to 4,096"),
        (30, "a row's draws spent with markers still missing"),
    ] {
        assert_eq!(Refusal::new(number).meaning(), words);
    }
    for number in [0, 34, u32::MAX] {
        assert_eq!(Refusal::new(number).meaning(), "no condition of document 01");
    }
}

#[test]
fn the_refusals_of_one_step_say_their_conditions() {
    assert_eq!(Refusal::new(31).meaning(), "alphabet size other than 2, 4, 8, 16 or 32");
    assert_eq!(Refusal::new(32).meaning(), "step part not finite or above 2^20 in size");
    assert_eq!(Refusal::new(33).meaning(), "noise variance not finite or outside 0.001 to 2^60");
}
