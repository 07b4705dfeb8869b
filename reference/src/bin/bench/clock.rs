//! Median times.

use std::time::Instant;

/// Something to be timed.
pub type Contestant<'a> = Box<dyn FnMut() + 'a>;

const ROUNDS: usize = 31;

/// For each contestant the median over the rounds of the nanoseconds that one call takes.
/// In a round they take turns, and each makes `calls` calls.
pub fn medians(calls: usize, mut contestants: Vec<Contestant>) -> Vec<f64> {
    let mut times = vec![Vec::new(); contestants.len()];
    for _ in 0..ROUNDS {
        for (contestant, times) in contestants.iter_mut().zip(&mut times) {
            times.push(time(calls, contestant));
        }
    }
    times.into_iter().map(median).collect()
}

fn time(calls: usize, contestant: &mut Contestant) -> f64 {
    let start = Instant::now();
    (0..calls).for_each(|_| contestant());
    start.elapsed().as_nanos() as f64 / calls as f64
}

fn median(mut times: Vec<f64>) -> f64 {
    times.sort_by(f64::total_cmp);
    times[times.len() / 2]
}

/// A line of all times, and of the first one's ratio to each of the others.
pub fn print_times(who: &[&str], times: &[f64]) {
    print!("  {} {:.0} ns", who[0], times[0]);
    for (who, time) in who.iter().zip(times).skip(1) {
        print!("; {who} {time:.0} ns, ratio {:.3}", times[0] / time);
    }
    println!();
}
