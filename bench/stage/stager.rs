//! What stage programs, advice and visits cost, without their proofs.
//!
//!     stager solve TRIALS < GAME             writes the certificate, and says on standard error how long solving took
//!     stager sets COUNT < GAME               writes a certificate of COUNT nodes and COUNT points
//!     stager visit ROUNDS W.. < BOTH         visits the beliefs W (numbers joined by commas) on a certificate's sets
//!     stager lower ROUNDS W.. < BOTH         their lower sides alone
//!     stager parts ROUNDS W.. < BOTH         the parts of a visit, each alone
use alpha_set::NodeSet;
use belief::Belief;
use controller::{Certificate, Outcome};
use game_model::Game;
use point_set::PointSet;
use rattle_std::{filled, Global};
use scaled_num::Fraction;
use simplex::Solver;
use std::alloc::{GlobalAlloc, Layout, System};
use std::io::{Read, Write};
use std::sync::atomic::{AtomicU64, Ordering::Relaxed};
use std::time::Instant;

/// The system's allocator, which counts how often memory is asked for.
struct Counting;

static ASKED: AtomicU64 = AtomicU64::new(0);

unsafe impl GlobalAlloc for Counting {
    unsafe fn alloc(&self, layout: Layout) -> *mut u8 {
        ASKED.fetch_add(1, Relaxed);
        System.alloc(layout)
    }

    unsafe fn dealloc(&self, memory: *mut u8, layout: Layout) {
        System.dealloc(memory, layout)
    }

    unsafe fn realloc(&self, memory: *mut u8, layout: Layout, size: usize) -> *mut u8 {
        ASKED.fetch_add(1, Relaxed);
        System.realloc(memory, layout, size)
    }
}

#[global_allocator]
static COUNTING: Counting = Counting;

const GAP: Fraction = Fraction { num: 1, den: 100 };

/// How long a piece of work took and the simplex within it, in seconds, how many programs that ran, and how often the
/// work asked for memory.
#[derive(Clone, Copy)]
struct Cost {
    total: f64,
    simplex: f64,
    runs: u64,
    asked: u64,
}

fn measured<R>(work: impl FnOnce() -> R) -> (R, Cost) {
    rattle_std::CALLS.store(0, Relaxed);
    rattle_std::NANOSECONDS.store(0, Relaxed);
    let before = ASKED.load(Relaxed);
    let start = Instant::now();
    let made = work();
    let total = start.elapsed().as_secs_f64();
    let simplex = rattle_std::NANOSECONDS.load(Relaxed) as f64 / 1e9;
    let runs = rattle_std::CALLS.load(Relaxed);
    let asked = ASKED.load(Relaxed) - before;
    (made, Cost { total, simplex, runs, asked })
}

/// The least cost of some rounds, since other work on the machine only adds to it.
fn least<R>(rounds: u32, mut work: impl FnMut() -> R) -> Cost {
    let costs = (0..rounds).map(|_| measured(&mut work).1);
    costs.min_by(|one, other| one.total.total_cmp(&other.total)).expect("a round")
}

fn solve(game: &Game, trials: u32) {
    let (solved, cost) = measured(|| hsvi_trial::solve(Global, game, trials, &GAP).expect("memory"));
    let Cost { total, simplex, runs, asked } = cost;
    let (nodes, points) = (solved.nodes.len(), solved.points.len());
    let elsewhere = total - simplex;
    eprintln!("runs {runs} asked {asked} nodes {nodes} points {points}");
    eprintln!("total {total:.4} simplex {simplex:.4} elsewhere {elsewhere:.4}");
    let starts = [(solved.start_node, 1)];
    let (points, multiple) = (&solved.start_points, solved.multiple);
    let certificate =
        controller::export(Global, game, &solved.nodes, &solved.points, &starts, points, multiple, &GAP, solved.outcome);
    print(game, &certificate.expect("memory"));
}

fn print(game: &Game, certificate: &Certificate) {
    let text = cert_text::print(Global, game, certificate).expect("memory");
    std::io::stdout().write_all(&text).expect("an output");
}

fn solver_for(game: &Game) -> Solver {
    let mut solver = Solver::new(Global);
    backup::reserve_solver(&mut solver, game).expect("memory");
    solver
}

/// Numbers of a fixed linear congruential generator, below a limit.
struct Numbers(u64);

impl Numbers {
    fn below(&mut self, limit: u64) -> i128 {
        self.0 = self.0.wrapping_mul(6_364_136_223_846_793_005).wrapping_add(1_442_695_040_888_963_407);
        i128::from((self.0 >> 33) % limit)
    }

    /// A belief with parts below 100, none of which is 0 in one of four.
    fn belief(&mut self, states: u32) -> Belief {
        loop {
            let parts: Vec<i128> = (0..states).map(|_| self.below(2) * self.below(100) + self.below(2)).collect();
            if let Some(belief) = Belief::of(&parts) {
                return belief;
            }
        }
    }
}

/// Sets of so many members: the seeds, and what visits of drawn beliefs make of them.
fn sets(game: &Game, count: u32) {
    let (mut nodes, mut points) = backup::seed(Global, game).expect("memory");
    let mut solver = solver_for(game);
    let mut numbers = Numbers(1);
    while nodes.len() < count || points.len() < count {
        let belief = numbers.belief(game.states());
        if nodes.len() < count {
            let (_, node) = backup::lower_visit(Global, &mut solver, game, &belief, &nodes).expect("memory");
            nodes.push(node).expect("room");
        }
        if points.len() < count {
            let (_, point) = backup::upper_visit(Global, &mut solver, game, &belief, &points).expect("memory");
            points.push(point).expect("room");
        }
    }
    print(game, &certificate(game, nodes, points));
}

/// A certificate of sets, which starts at the first node, and at the corners.
fn certificate(game: &Game, nodes: NodeSet, points: PointSet) -> Certificate {
    let mut start_nodes = filled((0, 1), 1).expect("memory");
    start_nodes[0] = (0, 1);
    let first = game.first();
    let mut start_points = filled((0, 0), 0).expect("memory");
    for s in 0..game.states() {
        if first[s as usize] > 0 {
            start_points.push((s, first[s as usize])).expect("memory");
        }
    }
    let nothing = Fraction { num: 0, den: 1 };
    let (lower, upper, tail) = (nothing, nothing, nothing);
    let outcome = Outcome::Trials;
    let multiple = 1;
    Certificate { lower, upper, tail, gap: GAP, outcome, nodes, points, start_nodes, start_points, multiple }.concluded(game)
}

fn told(name: &str, cost: Cost) {
    let Cost { total, simplex, runs, asked } = cost;
    let [total, simplex] = [total, simplex].map(|seconds| seconds * 1e6);
    let elsewhere = total - simplex;
    println!("{name} runs {runs} asked {asked} total {total:.1} simplex {simplex:.1} elsewhere {elsewhere:.1}");
}

/// The sides of a visit of each belief, in microseconds.
fn visit(game: &Game, found: &Certificate, beliefs: &[Belief], rounds: u32, both: bool) {
    let mut solver = solver_for(game);
    for belief in beliefs {
        told("lower", least(rounds, || backup::lower_visit(Global, &mut solver, game, belief, &found.nodes)));
        if both {
            told("upper", least(rounds, || backup::upper_visit(Global, &mut solver, game, belief, &found.points)));
        }
    }
}

/// The parts of the first runs of each belief and of what candidates the others have, in microseconds.
fn parts(game: &Game, found: &Certificate, beliefs: &[Belief], rounds: u32) {
    use stage_game::{lower_advice, lower_candidates, lower_program, upper_advice, upper_candidates, upper_program};
    let (nodes, points) = (&found.nodes, &found.points);
    let mut solver = solver_for(game);
    for b in beliefs {
        let ends = lower_candidates(Global, game, b, nodes, None).expect("memory");
        let advice = lower_advice(Global, &mut solver, game, b, nodes, &ends, 10).expect("memory");
        let mixes = Some(&advice.informed);
        told("lower-first", least(rounds, || lower_candidates(Global, game, b, nodes, None)));
        told("lower-priced", least(rounds, || lower_candidates(Global, game, b, nodes, mixes)));
        told("lower-program", least(rounds, || lower_program(Global, game, b, nodes, &ends, 10)));
        told("lower-advice", least(rounds, || lower_advice(Global, &mut solver, game, b, nodes, &ends, 10)));
        told("lower-node", least(rounds, || backup::new_node(Global, game, &advice, nodes)));
        let ends = upper_candidates(Global, game, b, points, None).expect("memory");
        let advice = upper_advice(Global, &mut solver, game, b, points, &ends, 10).expect("memory");
        let mixes = Some(&advice.informed);
        told("upper-first", least(rounds, || upper_candidates(Global, game, b, points, None)));
        told("upper-priced", least(rounds, || upper_candidates(Global, game, b, points, mixes)));
        told("upper-program", least(rounds, || upper_program(Global, game, b, points, &ends, 10)));
        told("upper-advice", least(rounds, || upper_advice(Global, &mut solver, game, b, points, &ends, 10)));
        told("upper-point", least(rounds, || backup::new_point(Global, game, b, &advice, points)));
    }
}

fn belief(word: &str) -> Belief {
    let parts: Vec<i128> = word.split(',').map(|part| part.parse().expect("a number")).collect();
    Belief::of(&parts).expect("a belief")
}

fn main() {
    let words: Vec<String> = std::env::args().skip(1).collect();
    let mut bytes = Vec::new();
    std::io::stdin().read_to_end(&mut bytes).expect("an input");
    let (game, end) = game_text::read(Global, &bytes).expect("a game");
    let number = words.get(1).and_then(|word| word.parse().ok()).expect("a command and a number");
    let beliefs: Vec<Belief> = words[2..].iter().map(|word| belief(word)).collect();
    let certificate = || cert_text::read(Global, &game, &bytes[end..]).expect("a certificate");
    match words[0].as_str() {
        "solve" => solve(&game, number),
        "sets" => sets(&game, number),
        "visit" => visit(&game, &certificate(), &beliefs, number, true),
        "lower" => visit(&game, &certificate(), &beliefs, number, false),
        "parts" => parts(&game, &certificate(), &beliefs, number),
        word => panic!("no command {word}"),
    }
}
