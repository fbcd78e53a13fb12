//! The plates of document 01.

use crate::draft::{Draft, DraftLink};

/// Plate A: 3 nodes, destination 0, all six links.
pub fn plate_a() -> Draft {
    let mut links = Vec::new();
    for from in 0..3 {
        for to in (0..3).filter(|&to| to != from) {
            links.push(DraftLink { from, to, load_step: 0, fraction: 0 });
        }
    }
    let traffic = vec![(0, 5), (1, 2), (2, 5)];
    let mut plate = Draft { nodes: 3, destination: 0, step: 64, traffic, links };
    plate.link(1, 0).load_step = 192;
    plate.link(1, 0).fraction = 65_536;
    plate.link(2, 0).fraction = 65_536;
    plate
}

/// Plate B: as A, with another load, split, step and traffic.
pub fn plate_b() -> Draft {
    let mut plate = plate_a();
    plate.link(1, 0).load_step = 0;
    plate.link(2, 0).load_step = 192;
    plate.link(1, 0).fraction = 32_768;
    plate.link(1, 2).fraction = 32_768;
    plate.step = 256;
    plate.traffic[1].1 = 1;
    plate.traffic[2].1 = 100;
    plate
}

/// Plate A with a loop between nodes 1 and 2 (case 7).
pub fn plate_with_loop() -> Draft {
    let mut plate = plate_a();
    for link in &mut plate.links {
        link.fraction = 0;
    }
    plate.link(1, 2).fraction = 65_536;
    plate.link(2, 1).fraction = 65_536;
    plate
}
