//! Lists of offers to a hold by itself.
use crate::count::Count;
use crate::random::Random;
use dimpstea::Hold;

pub fn run(cases: usize, random: &Random, count: &mut Count) {
    for _ in 0..cases {
        let (hold, dead) = (random.below(12), random.below(60));
        let mut port = Hold::new(hold as u64, dead as u64);
        let mut reference = reference::adaptor::hold(hold as i64, dead as i64);
        let mut position = 0;
        for _ in 0..random.within(1, 60) {
            // Mostly rising, as a search offers them; few metrics, so that many are equal.
            position = if random.one_in(20) { random.below(300) } else { position + random.below(8) };
            let metric = random.one_in(2).then(|| random.within(20, 24) as f64);
            let released = port.offer(position as u64, metric).expect("an accepted offer");
            let released = released.map(|d| (d.position as i64, d.metric));
            let expected = reference.offer(position as i64, metric);
            count.compare("offers", released == expected, || {
                format!("offer at {position}: {released:?}, the reference has {expected:?}")
            });
            if expected.is_some() {
                count.note("releases of lone holds");
            }
        }
    }
}
