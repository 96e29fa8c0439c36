//! Requests of one seat, by workers in rounds, in plain Rust: one `Mutex`, a `VecDeque` for each queue, a `Condvar` for each worker. The rules are those of
//! `apf run --rounds`. `bench/rounds` compiles it, and compares what it prints.
//!
//! usage: rounds WORKERS REQUESTS ROUNDS LIMIT QUEUES HAND LENGTH
//!
//! It prints the book as `apf run` does, and on standard error how many nanoseconds the rounds took.

use std::collections::VecDeque;
use std::sync::{Condvar, Mutex, MutexGuard};
use std::time::Instant;
use std::{env, hint, thread};

/// How often a worker looks whether its request is decided before it sleeps.
const READINGS_AWAKE: u32 = 100;
const MOST_CARDS: usize = 15;

#[derive(Clone, Copy, PartialEq)]
enum Decision {
    Waits,
    Executes,
}

#[derive(Default)]
struct Counts {
    executed: u64,
    full: u64,
    entered: u64,
    dispatched: u64,
}

struct State {
    limit: u32,
    length: usize,
    seats: u32,
    waiting: u64,
    /// The workers whose requests wait, by queue.
    queues: Vec<VecDeque<usize>>,
    /// What each queue was given, in seats, and what the queue that was served last had been given before.
    given: Vec<u64>,
    reached: u64,
    /// The queue that was served last: ties go to the next one behind it.
    last: usize,
    decisions: Vec<Decision>,
    asleep: Vec<bool>,
    counts: Counts,
}

/// A hand of queues, by a flow's hash.
fn deal(deck: usize, cards: usize, mut hash: u64) -> ([usize; MOST_CARDS], usize) {
    let mut places = [0; MOST_CARDS];
    let mut hand = [0; MOST_CARDS];
    for i in 0..cards {
        let left = (deck - i) as u64;
        let mut card = (hash % left) as usize;
        places[i] = card;
        hash /= left;
        for place in places[..i].iter().rev() {
            if card >= *place {
                card += 1;
            }
        }
        hand[i] = card;
    }
    (hand, cards)
}

impl State {
    /// The queue whose first request has the least virtual finish.
    fn chosen(&self) -> Option<usize> {
        let count = self.queues.len();
        (1..=count)
            .map(|step| (self.last + step) % count)
            .filter(|queue| !self.queues[*queue].is_empty())
            .min_by_key(|queue| self.given[*queue])
    }

    fn dispatch(&mut self, sleepers: &[Condvar]) {
        while self.waiting != 0 && self.seats < self.limit {
            let Some(queue) = self.chosen() else { return };
            let Some(worker) = self.queues[queue].pop_front() else { return };
            self.waiting -= 1;
            self.seats += 1;
            self.reached = self.reached.max(self.given[queue]);
            self.given[queue] += 1;
            self.last = queue;
            self.decisions[worker] = Decision::Executes;
            self.counts.dispatched += 1;
            if self.asleep[worker] {
                sleepers[worker].notify_one();
            }
        }
    }

    /// The worker's request enters the shortest queue of its hand, or finds it full.
    fn enter(&mut self, worker: usize, hand: &[usize]) -> bool {
        let Some(queue) = hand.iter().copied().min_by_key(|queue| self.queues[*queue].len()) else { return false };
        if self.queues[queue].len() >= self.length {
            self.counts.full += 1;
            return false;
        }
        if self.queues[queue].is_empty() {
            self.given[queue] = self.given[queue].max(self.reached);
        }
        self.queues[queue].push_back(worker);
        self.waiting += 1;
        self.counts.entered += 1;
        self.decisions[worker] = Decision::Waits;
        true
    }
}

struct Level {
    state: Mutex<State>,
    sleepers: Vec<Condvar>,
}

impl Level {
    fn lock(&self) -> MutexGuard<'_, State> {
        self.state.lock().expect("no worker panics")
    }

    /// Waits until the worker's request, which entered a queue, executes.
    fn wait<'a>(&'a self, worker: usize, mut state: MutexGuard<'a, State>) {
        let mut readings = 0;
        while state.decisions[worker] == Decision::Waits {
            if readings < READINGS_AWAKE {
                readings += 1;
                drop(state);
                hint::spin_loop();
                state = self.lock();
            } else {
                state.asleep[worker] = true;
                state = self.sleepers[worker].wait(state).expect("no worker panics");
            }
        }
        state.asleep[worker] = false;
    }

    /// A request of this flow arrives. Says whether it executes.
    fn admit(&self, worker: usize, hash: u64, cards: usize) -> bool {
        let mut state = self.lock();
        if state.waiting == 0 && state.seats < state.limit {
            state.seats += 1;
            return true;
        }
        let (hand, cards) = deal(state.queues.len(), cards, hash);
        if !state.enter(worker, &hand[..cards]) {
            return false;
        }
        state.dispatch(&self.sleepers);
        self.wait(worker, state);
        true
    }

    fn release(&self) {
        let mut state = self.lock();
        state.seats -= 1;
        state.counts.executed += 1;
        if state.waiting != 0 {
            state.dispatch(&self.sleepers);
        }
    }
}

fn main() {
    let words: Vec<u64> = env::args().skip(1).map(|word| word.parse().expect("a number")).collect();
    let [workers, requests, rounds, limit, queues, cards, length] = words[..] else { panic!("seven numbers") };
    let (workers, queues, cards) = (workers as usize, queues as usize, cards as usize);
    let level = Level {
        state: Mutex::new(State {
            limit: limit as u32,
            length: length as usize,
            seats: 0,
            waiting: 0,
            queues: (0..queues).map(|_| VecDeque::with_capacity(length as usize)).collect(),
            given: vec![0; queues],
            reached: 0,
            last: queues - 1,
            decisions: vec![Decision::Waits; workers],
            asleep: vec![false; workers],
            counts: Counts::default(),
        }),
        sleepers: (0..workers).map(|_| Condvar::new()).collect(),
    };
    let begin = Instant::now();
    thread::scope(|scope| {
        for worker in 0..workers {
            let level = &level;
            scope.spawn(move || {
                for _round in 0..rounds {
                    for request in (worker as u64..requests).step_by(workers) {
                        if level.admit(worker, (request % 200).wrapping_mul(0x9e37_79b9_7f4a_7c15), cards) {
                            level.release();
                        }
                    }
                }
            });
        }
    });
    let took = begin.elapsed();
    let state = level.lock();
    let counts = &state.counts;
    println!("level open seats {} waiting {}", state.seats, state.waiting);
    println!("executed {} rejected {} cancelled 0 undecided 0", counts.executed, counts.full);
    println!("queue-full {} closed 0 concurrency-limit 0", counts.full);
    println!("entered {} dispatched {} struck 0", counts.entered, counts.dispatched);
    eprintln!("{}", took.as_nanos());
}
