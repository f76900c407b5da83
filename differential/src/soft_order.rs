//! Soft bits by time and by carrier again, beside a list of cells that is sorted; bit patterns are compared, the
//! payloads of NaNs among them.
use crate::count::Count;
use crate::inputs;
use crate::random::Random;
use dimpstea::{raw, Layout, Refusal, Tables};

type Call = fn(u32, u32, &[u16], &[f64], &mut [f64]) -> Result<(), Refusal>;

/// `rounds` of each layout, and ten times as many damaged calls.
pub fn run(rounds: usize, random: &Random, count: &mut Count) {
    for &(bandwidth, record) in &Layout::ALL {
        let layout = Layout::choose(bandwidth, record).expect("a PSK layout");
        for _ in 0..rounds {
            compare(&layout, random, count);
            (0..10).for_each(|_| damage(&layout, random, count));
        }
    }
}

fn compare(layout: &Layout, random: &Random, count: &mut Count) {
    let tables = inputs::tables(layout, random);
    let soft = patterns(layout.payload, random);
    let expected = sorted(layout, &tables, &soft);
    let timed = called(raw::by_time, layout, &tables, &soft);
    let name = || format!("{}/{}", layout.bandwidth, layout.record);
    compare_bits("soft bits by time", &timed, &expected, name, count);
    compare_bits("soft bits by carrier again", &called(raw::by_carrier, layout, &tables, &timed), &soft, name, count);
    let back = called(raw::by_carrier, layout, &tables, &soft);
    compare_bits("soft bits by time again", &called(raw::by_time, layout, &tables, &back), &soft, name, count);
}

fn called(call: Call, layout: &Layout, tables: &Tables, soft: &[f64]) -> Vec<f64> {
    let mut out = vec![0.5; layout.payload];
    call(layout.bandwidth, layout.record, &tables.markers, soft, &mut out).expect("an accepted call");
    out
}

fn compare_bits(what: &'static str, port: &[f64], expected: &[f64], name: impl Fn() -> String, count: &mut Count) {
    for (i, (p, e)) in port.iter().zip(expected).enumerate() {
        count.compare(what, p.to_bits() == e.to_bits(), || {
            format!("{what} of {}, number {i}: {:016x}, not {:016x}", name(), p.to_bits(), e.to_bits())
        });
    }
}

/// "by symbol, then carrier, leaving marks out": the cells, which stand carrier by carrier, with their bits, sorted.
fn sorted(layout: &Layout, tables: &Tables, soft: &[f64]) -> Vec<f64> {
    let mark = |carrier: usize, symbol: usize| {
        tables.markers[carrier * layout.markers..][..layout.markers].contains(&(symbol as u16))
    };
    let symbols = |carrier| (1..layout.nsym).filter(move |&symbol| !mark(carrier, symbol));
    let cells = (0..layout.carriers).flat_map(|carrier| symbols(carrier).map(move |symbol| (symbol, carrier)));
    let mut cells: Vec<_> = cells.zip(soft.chunks(layout.bps)).collect();
    assert_eq!(cells.len() * layout.bps, layout.payload);
    cells.sort_by_key(|&(cell, _)| cell);
    cells.iter().flat_map(|(_, bits)| bits.iter().copied()).collect()
}

/// Any 64 bits; one in three is a NaN, quiet or signalling, with a sign and a payload of its own.
fn patterns(n: usize, random: &Random) -> Vec<f64> {
    let pattern = || match random.bits() {
        bits if random.one_in(3) => bits | 0x7ff0_0000_0000_0001,
        bits => bits,
    };
    (0..n).map(|_| f64::from_bits(pattern())).collect()
}

/// A call with some faults: the first of them is its answer, and `out` keeps its bits.
fn damage(layout: &Layout, random: &Random, count: &mut Count) {
    let (mut bandwidth, mut record) = (layout.bandwidth, layout.record);
    let mut tables = inputs::tables(layout, random);
    let mut soft = patterns(layout.payload, random);
    let mut out = patterns(layout.payload, random);
    let mut first = 0;
    for number in [11, 5, 4, 3, 2, 1] {
        if !random.one_in(3) {
            continue;
        }
        first = number;
        match number {
            1 => bandwidth = random.pick(&[0, 501, 2700, u32::MAX]),
            2 => record = random.pick(&[1, 2, 3, 11, 12, 13, 15, 16, 17]),
            3 => tables.markers.truncate(tables.markers.len() - 1),
            4 => tables.markers[0] = random.pick(&[0, 4, layout.spf as u16 - 3, tables.markers[1]]),
            5 => *tables.markers.last_mut().expect("flags") = random.pick(&[1, 2, u16::MAX]),
            _ => {
                let list = if random.one_in(2) { &mut soft } else { &mut out };
                list.resize(random.pick(&[0, layout.payload - 1, layout.payload + 1]), 0.5);
            }
        }
    }
    let call: Call = if random.one_in(2) { raw::by_time } else { raw::by_carrier };
    let before: Vec<u64> = out.iter().map(|x| x.to_bits()).collect();
    let met = call(bandwidth, record, &tables.markers, &soft, &mut out).err().map_or(0, Refusal::number);
    let kept = first == 0 || out.iter().map(|x| x.to_bits()).eq(before);
    count.refused(first);
    count
        .compare("calls for an order", met == first && kept, || format!("order: {met}, expected {first}, kept {kept}"));
}
