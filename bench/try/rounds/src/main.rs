//! Makes rounds on the procedures of modules, as the compiler does, and prints their lines.
//!
//!     rounds ROUNDS size|speed FILE..    a FILE is what code.py writes of a module
//!
//! For each procedure a line `NAME NUMBER COST BOUND COST BOUND ..` from round 0 on, and for each
//! file `time NAME MILLISECONDS`, what all its rounds took.

mod code;
mod visits;

use al_round::{Rounds, Verdict, Watch};
use code::NamedCode;
use net_cost::{CostModel, Event, Weights};
use net_form::Line;
use plain::Global;
use std::time::Instant;

fn rounds_of(code: &pra_base::VProc, rounds: u32, weights: Weights, visits: u64) -> Vec<Line> {
    let alloc = Global;
    let model = CostModel::keep(weights, move |event: Event, depth: u32| {
        weights.weight(event, depth)
    });
    let watch = Watch::keep(0, |line: Line| {
        if line.cost <= line.bound { Verdict::Stop } else { Verdict::Go }
    });
    let live = vc_live::live(alloc, code).unwrap();
    let net = net_build::build(alloc, code, &live).unwrap();
    let mut made = Rounds::start(alloc, &net, &model, visits).unwrap();
    made.grant(alloc, &net, &model, rounds, &watch).unwrap();
    made.lines.as_slice().to_vec()
}

fn main() {
    let words: Vec<String> = std::env::args().collect();
    let rounds: u32 = words[1].parse().unwrap();
    let weights = if words[2] == "size" { Weights::size() } else { Weights::speed() };
    for file in &words[3..] {
        let name = file.rsplit('/').next().unwrap().trim_end_matches(".code");
        let codes = code::read(&std::fs::read_to_string(file).unwrap());
        let begun = Instant::now();
        let visits = visits::shared_visits(Global, &codes).unwrap();
        for (number, NamedCode { code }) in codes.iter().enumerate() {
            print!("{name} {number}");
            for line in rounds_of(code, rounds, weights, visits[number]) {
                print!(" {} {}", line.cost, line.bound);
            }
            println!();
        }
        println!("time {name} {:.1}", begun.elapsed().as_secs_f64() * 1000.0);
    }
}
