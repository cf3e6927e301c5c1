//! Times calls side by side. Repeats are interleaved, so that all meet the same machine, and the rows are gone through in rounds, so
//! that no row is measured at one moment alone.
use std::time::Instant;

const ROUNDS: usize = 5;
const REPEATS: usize = 21;

/// One kind of work, done by the proved code and by its peers, the proved code first.
pub struct Row {
    name: String,
    unit: &'static str,
    /// How many units one call does.
    work: f64,
    calls: Vec<Box<dyn FnMut()>>,
    /// For each of them and each round, the times of a unit in nanoseconds, sorted.
    times: Vec<Vec<Vec<f64>>>,
}

fn middle(sorted: &[f64]) -> f64 {
    sorted[sorted.len() / 2]
}

fn sorted(values: impl Iterator<Item = f64>) -> Vec<f64> {
    let mut values: Vec<f64> = values.collect();
    values.sort_by(f64::total_cmp);
    values
}

impl Row {
    pub fn new(name: String, unit: &'static str, work: usize, calls: Vec<Box<dyn FnMut()>>) -> Row {
        let times = calls.iter().map(|_| vec![]).collect();
        Row { name, unit, work: work as f64, calls, times }
    }

    fn time(&mut self, who: usize, calls: usize) -> f64 {
        let start = Instant::now();
        for _ in 0..calls {
            self.calls[who]();
        }
        start.elapsed().as_secs_f64() * 1e9 / calls as f64 / self.work
    }

    fn measure(&mut self) {
        // as many calls as take some three hundred microseconds
        let counts: Vec<usize> =
            (0..self.calls.len()).map(|who| ((3e5 / (self.time(who, 3) * self.work)) as usize).clamp(1, 100_000)).collect();
        let mut times: Vec<Vec<f64>> = counts.iter().map(|_| vec![]).collect();
        for i in 0..REPEATS {
            for j in 0..counts.len() {
                let who = (i + j) % counts.len();
                times[who].push(self.time(who, counts[who]));
            }
        }
        for (all, round) in self.times.iter_mut().zip(times) {
            all.push(sorted(round.into_iter()));
        }
    }

    /// The best of all rounds and the middle of their medians.
    fn shown(&self, who: usize) -> String {
        let rounds = &self.times[who];
        let best = sorted(rounds.iter().map(|r| r[0]))[0];
        format!("{best:.2}, {:.2}", middle(&sorted(rounds.iter().map(|r| middle(r)))))
    }

    /// The proved code's best time by a peer's, round by round: the middle one, the lowest and the highest.
    fn ratio(&self, who: usize) -> String {
        let ratios = sorted(self.times[0].iter().zip(&self.times[who]).map(|(p, q)| p[0] / q[0]));
        format!("{:.2} ({:.2} to {:.2})", middle(&ratios), ratios[0], ratios[ratios.len() - 1])
    }
}

/// Rows with the same peers.
pub struct Table {
    pub peers: &'static [&'static str],
    pub rows: Vec<Row>,
}

/// Measures all rows, round by round.
pub fn measure(tables: &mut [Table]) {
    for _ in 0..ROUNDS {
        tables.iter_mut().flat_map(|t| &mut t.rows).for_each(Row::measure);
    }
}

impl Table {
    pub fn print(&self) {
        let peers: String = self.peers.iter().map(|p| format!(" {p} |")).collect();
        let ratios: String = self.peers.iter().map(|p| format!(" proved / {p} |")).collect();
        println!("| | unit | proved |{peers}{ratios}");
        println!("|---|---|---|{}", "---|".repeat(2 * self.peers.len()));
        for r in &self.rows {
            let times: String = (0..=self.peers.len()).map(|who| format!(" {} |", r.shown(who))).collect();
            let ratios: String = (1..=self.peers.len()).map(|who| format!(" {} |", r.ratio(who))).collect();
            println!("| {} | ns/{} |{times}{ratios}", r.name, r.unit);
        }
        println!();
    }
}
