//! Turns run on several threads, with the outcome of one thread.
//!
//! A turn is fixed by its number, so turns can be run in any order. They are handed out in chunks, lowest first; the
//! chunks' tallies are added in the order of the turns, up to the first fault.

use crate::distances::Distances;
use std::collections::BTreeMap;
use std::ops::Range;
use std::sync::atomic::{AtomicU64, Ordering};
use std::sync::mpsc::{channel, RecvTimeoutError};
use std::thread;
use std::time::{Duration, Instant};

/// The turns that a thread takes at a time: few, so that a run ends soon after its time is up.
const CHUNK: u64 = 64;
/// How often a run that gets no news still reports.
const TICK: Duration = Duration::from_millis(200);

pub struct Plan {
    pub turns: Range<u64>,
    /// When to stop, whatever is left. The first turns are run in any case.
    pub until: Option<Instant>,
    pub threads: usize,
}

/// What came of some turns in a row.
#[derive(Default)]
pub struct Tally {
    pub calls: u64,
    pub refused: u64,
    /// How many calls had the limit 142, and how many 82.
    pub limits: [u64; 2],
    pub distances: Distances,
    /// The first turn that showed a fault; nothing after it is counted.
    pub fault: Option<u64>,
}

impl Tally {
    fn merge(&mut self, later: Tally) {
        if self.fault.is_none() {
            self.calls += later.calls;
            self.refused += later.refused;
            self.limits = [self.limits[0] + later.limits[0], self.limits[1] + later.limits[1]];
            self.distances.merge(later.distances);
            self.fault = later.fault;
        }
    }
}

/// Runs turns until they are all done, the time is up or one shows a fault. `one` runs a turn and adds it to a tally,
/// `watch` is told now and then what has been added up so far.
pub fn run(plan: &Plan, one: &(impl Fn(u64, &mut Tally) + Sync), mut watch: impl FnMut(&Tally)) -> Tally {
    let next = AtomicU64::new(0);
    // The chunk of the lowest fault so far: none after it is wanted.
    let last = AtomicU64::new(u64::MAX);
    let chunks = (plan.turns.end - plan.turns.start).div_ceil(CHUNK);
    let (send, receive) = channel();
    let work = |send: std::sync::mpsc::Sender<(u64, Tally)>| loop {
        // The time is looked at before a chunk is taken, so that every chunk taken is run and none is left out.
        let late = plan.until.is_some_and(|until| Instant::now() >= until);
        if late && next.load(Ordering::SeqCst) > 0 {
            return;
        }
        let chunk = next.fetch_add(1, Ordering::SeqCst);
        if chunk >= chunks || chunk > last.load(Ordering::SeqCst) {
            return;
        }
        let tally = run_chunk(plan, chunk, one);
        if tally.fault.is_some() {
            last.fetch_min(chunk, Ordering::SeqCst);
        }
        if send.send((chunk, tally)).is_err() {
            return;
        }
    };
    let mut whole = Tally::default();
    thread::scope(|scope| {
        for _ in 0..plan.threads.max(1) {
            let send = send.clone();
            let work = &work;
            scope.spawn(move || work(send));
        }
        drop(send);
        let (mut waiting, mut wanted) = (BTreeMap::new(), 0);
        loop {
            match receive.recv_timeout(TICK) {
                Ok((chunk, tally)) => drop(waiting.insert(chunk, tally)),
                Err(RecvTimeoutError::Timeout) => {}
                Err(RecvTimeoutError::Disconnected) => break,
            }
            while let Some(tally) = waiting.remove(&wanted) {
                whole.merge(tally);
                wanted += 1;
            }
            watch(&whole);
        }
    });
    whole
}

fn run_chunk(plan: &Plan, chunk: u64, one: &impl Fn(u64, &mut Tally)) -> Tally {
    let start = plan.turns.start + chunk * CHUNK;
    let mut tally = Tally::default();
    for turn in start..plan.turns.end.min(start.saturating_add(CHUNK)) {
        one(turn, &mut tally);
        tally.calls += 1;
        if tally.fault.is_some() {
            break;
        }
    }
    tally
}

#[cfg(test)]
mod tests {
    use super::*;
    use crate::random::Random;

    /// Distances and refusals drawn from the turn, and a fault on some turns.
    fn turn(turn: u64, faulty: &[u64], tally: &mut Tally) {
        let mut random = Random::new(7, 1, turn);
        let distance = random.below(1000) as f64;
        tally.refused += u64::from(random.once_in(3));
        let what = if random.once_in(50) { "rare" } else { "common" };
        tally.distances.seen(what, None, distance, &[turn as u32]);
        tally.distances.count("odd", distance % 2.0 == 1.0, turn, &[turn as u32]);
        // An early chunk that takes longer than those after it.
        if turn == 100 {
            thread::sleep(Duration::from_millis(30));
        }
        if faulty.contains(&turn) {
            tally.fault = Some(turn);
        }
    }

    fn outcome(threads: usize, faulty: &[u64]) -> String {
        let plan = Plan { turns: 5..5000, until: None, threads };
        let tally = run(&plan, &|t, tally: &mut Tally| turn(t, faulty, tally), |_| {});
        let mut text = format!("{} {} {:?}", tally.calls, tally.refused, tally.fault);
        for distance in tally.distances.largest {
            text += &format!(" {} {} {:?}", distance.what, distance.largest, distance.shown_by);
        }
        for count in tally.distances.counts {
            text += &format!(" {} {} {} {:?}", count.what, count.times, count.turn, count.shown_by);
        }
        text
    }

    #[test]
    fn the_number_of_threads_changes_nothing() {
        for faulty in [&[][..], &[4999], &[101, 130, 190], &[3000, 170]] {
            let one = outcome(1, faulty);
            for threads in [2, 3, 8] {
                assert_eq!(outcome(threads, faulty), one);
            }
        }
    }

    #[test]
    fn it_stops_at_the_lowest_fault() {
        assert!(outcome(4, &[101, 130, 190]).starts_with("97 "));
        assert!(outcome(4, &[101, 130, 190]).contains("Some(101)"));
        assert!(outcome(4, &[]).starts_with("4995 "));
    }

    #[test]
    fn it_stops_when_its_time_is_up_and_runs_something_even_then() {
        let plan = |until| Plan { turns: 0..u64::MAX, until: Some(until), threads: 2 };
        let slow = |_: u64, _: &mut Tally| thread::sleep(Duration::from_micros(100));
        let began = Instant::now();
        let calls = run(&plan(began), &slow, |_| {}).calls;
        assert!(calls >= CHUNK && calls % CHUNK == 0, "{calls}");
        run(&plan(began + Duration::from_millis(50)), &slow, |_| {});
        assert!(began.elapsed() < Duration::from_secs(5));
    }
}
