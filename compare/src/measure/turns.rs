//! Several ways to do the same, measured in turns.

use std::time::Instant;

/// One way, as a run over all inputs.
pub struct Way<'a> {
    name: &'static str,
    run: Box<dyn FnMut() + 'a>,
}

impl<'a> Way<'a> {
    pub fn new(name: &'static str, run: impl FnMut() + 'a) -> Way<'a> {
        Way { name, run: Box::new(run) }
    }

    fn seconds(&mut self) -> f64 {
        let start = Instant::now();
        (self.run)();
        start.elapsed().as_secs_f64()
    }
}

/// What is told of a run: its time, or that of one of so many calls in it.
#[derive(Clone, Copy)]
pub enum Told {
    Run,
    OneCall { of: usize },
}

/// Prints the time of each way, and the ratio of the first way, which is the proved
/// one, to each other. Of the rounds the fastest counts: what else the machine does
/// can only slow one down. The ways take turns, so that a slow time of the machine
/// meets all of them.
pub fn compare(what: &str, told: Told, rounds: usize, mut ways: Vec<Way>) {
    let mut fastest = vec![f64::INFINITY; ways.len()];
    for _ in 0..rounds {
        for (way, fastest) in ways.iter_mut().zip(&mut fastest) {
            *fastest = fastest.min(way.seconds());
        }
    }
    for (number, (way, seconds)) in ways.iter().zip(&fastest).enumerate() {
        let time = match told {
            Told::Run => format!("{seconds:.3} s"),
            Told::OneCall { of } => format!("{:.1} ns", seconds * 1e9 / of as f64),
        };
        let ratio = format!(", ratio {:.2}", fastest[0] / seconds);
        let ratio = if number == 0 { "" } else { &ratio };
        println!("{what}, {}: {time}{ratio}", way.name);
    }
}
