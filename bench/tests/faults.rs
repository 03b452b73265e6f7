//! The comparison bites: it finds each wrong version of the model.

use independent::compare::{compare, shortest, streams_until, Plan};
use independent::fault::{Fault, Wrong};
use independent::rules::Document;
use independent::subject::{Target, Version};

/// Streams of each program that may pass before a fault has to be found.
const MOST: u64 = 120;

/// Lists each fault with the number of streams of each target until they show it.
#[test]
fn every_fault_is_found() {
    let faults = Fault::all();
    let mut missed = Vec::new();
    println!("streams until found (program, probe, exported run, live calls)");
    for fault in &faults {
        let counts = Target::FINDING.map(|target| streams_until(*fault, target, 1, MOST));
        let shown = counts.map(|count| count.map_or("-".to_string(), |count| count.to_string()));
        println!("{:>4} {:>4} {:>4} {:>4}  {}", shown[0], shown[1], shown[2], shown[3], fault.says());
        if counts == [None; 4] {
            missed.push(*fault);
        }
    }
    assert!(faults.len() >= 10);
    assert_eq!(missed, []);
}

/// The right version passes the comparison, examples and all.
#[test]
fn the_right_version_passes() {
    let plan = Plan { seed: 3, first: 0, count: 120, until: None };
    let mut found = compare(&Version(Document), &plan);
    found.count_reached();
    assert_eq!((found.failed, &found.lacking[..]), (0, &[][..]));
    assert!(found.passed > 360);
}

/// A wrong version is told with a stream of a few pieces.
#[test]
fn a_difference_is_shrunk() {
    let streams = streams_until(Fault::LimitOneShort, Target::Program, 1, MOST).expect("found");
    let short = shortest(Fault::LimitOneShort, Target::Program, 1, streams);
    assert!(short.len() <= 30, "{short:?}");
    let plan = Plan { seed: 3, first: 0, count: 4, until: None };
    assert!(compare(&Version(Wrong(Fault::LimitOneShort)), &plan).failed > 0);
}
