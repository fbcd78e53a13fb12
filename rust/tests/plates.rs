//! The plates of document 01, all cases, by each of the three implementations.

use hjerringsel::calls::{Calls, LIBRARY, RIVAL, SECOND};
use hjerringsel::draft::Draft;
use hjerringsel::plates::{plate_a, plate_b, plate_with_loop};
use hjerringsel::{Answer, Refusal};

const ALL: [Calls; 3] = [LIBRARY, SECOND, RIVAL];

fn refused(number: u32, place: usize) -> Answer {
    Err(Refusal { number, place })
}

/// The sheet that Next writes, which Play in house order must write too.
fn after_round(calls: &Calls, draft: &Draft) -> Vec<u8> {
    let sheet = draft.write();
    let mut next = vec![0; sheet.len()];
    assert_eq!((calls.next)(&sheet, &mut next), Ok(sheet.len()), "{}", calls.name);
    let mut played = vec![0; sheet.len()];
    let order = house(calls, draft);
    assert_eq!((calls.play)(&sheet, &order, &mut played), Ok(sheet.len()), "{}", calls.name);
    assert_eq!(played, next, "{}", calls.name);
    assert_eq!((calls.check)(&next), Ok(draft.links.len()), "{}", calls.name);
    next
}

fn house(calls: &Calls, draft: &Draft) -> Vec<u16> {
    let mut order = vec![0; draft.links.len()];
    assert_eq!((calls.house)(&draft.write(), &mut order), Ok(draft.links.len()), "{}", calls.name);
    order
}

/// Status, mark and delay of each node.
fn frame(calls: &Calls, draft: &Draft, order: &[u16]) -> Vec<(u8, u8, u32)> {
    let mut out = vec![0xee; 6 * draft.nodes as usize];
    assert_eq!((calls.frame)(&draft.write(), order, &mut out), Ok(out.len()), "{}", calls.name);
    let delay = |node: &[u8]| u32::from_be_bytes([node[2], node[3], node[4], node[5]]);
    out.chunks_exact(6).map(|node| (node[0], node[1], delay(node))).collect()
}

/// A plate with other fractions must be what the round makes of it, byte for byte.
fn becomes(plate: &Draft, fractions: &[(u8, u8, u32)]) {
    let mut due = plate.clone();
    for &(from, to, fraction) in fractions {
        due.link(from, to).fraction = fraction;
    }
    for calls in ALL {
        assert_eq!(after_round(&calls, plate), due.write(), "{}", calls.name);
    }
}

#[test]
fn plate_a_has_74_bytes_and_6_links() {
    for calls in ALL {
        assert_eq!(plate_a().write().len(), 74);
        assert_eq!((calls.check)(&plate_a().write()), Ok(6), "{}", calls.name);
    }
}

#[test]
fn case_1() {
    becomes(&plate_a(), &[(1, 0, 58_368), (1, 2, 7_168)]);
    for calls in ALL {
        let all = frame(&calls, &plate_a(), &house(&calls, &plate_a()));
        assert_eq!(all, [(2, 0, 0), (2, 0, 256), (2, 0, 16)], "{}", calls.name);
    }
}

#[test]
fn case_2() {
    let mut plate = plate_a();
    plate.traffic[1].1 = 0;
    becomes(&plate, &[(1, 0, 0), (1, 2, 65_536)]);
}

#[test]
fn case_3() {
    becomes(&plate_b(), &[(1, 0, 65_536), (1, 2, 0)]);
    for calls in ALL {
        let all = frame(&calls, &plate_b(), &house(&calls, &plate_b()));
        assert_eq!(all, [(2, 0, 0), (2, 1, 144), (2, 0, 256)], "{}", calls.name);
    }
}

#[test]
fn case_4() {
    let mut plate = plate_b();
    plate.step = 257;
    let row_1 = [(1, 0, 65_536), (1, 2, 0)];
    becomes(&plate, &[row_1[0], row_1[1], (2, 0, 65_290), (2, 1, 246)]);
    for calls in ALL {
        let all = frame(&calls, &plate, &house(&calls, &plate));
        assert!(all.iter().all(|node| node.1 == 0), "{}: nothing is blocked", calls.name);
    }
}

#[test]
fn case_5() {
    for calls in ALL {
        assert_eq!(house(&calls, &plate_a()), [0, 1, 3, 4, 5, 2], "{}", calls.name);
    }
}

#[test]
fn case_6() {
    let sheet = plate_a().write();
    let lists: [(&[u16], Answer, Answer); 4] = [
        (&[2], refused(10, 0), refused(10, 0)),
        (&[0, 0], refused(10, 1), refused(10, 1)),
        (&[6], refused(12, 0), refused(12, 0)),
        (&[], refused(11, 0), Ok(18)),
    ];
    for calls in ALL {
        for (list, play, frame) in lists {
            assert_eq!((calls.play)(&sheet, list, &mut [0; 74]), play, "{}", calls.name);
            assert_eq!((calls.frame)(&sheet, list, &mut [0; 18]), frame, "{}", calls.name);
        }
        let start = frame(&calls, &plate_a(), &[]);
        assert_eq!(start, [(1, 0, 0), (0, 0, 0), (0, 0, 0)], "{}", calls.name);
    }
}

#[test]
fn case_7() {
    for calls in ALL {
        assert_eq!((calls.check)(&plate_with_loop().write()), refused(8, 1), "{}", calls.name);
    }
}

#[test]
fn case_8() {
    let sheet = plate_a().write();
    let mut longer = sheet.clone();
    longer.push(9);
    let mut one_way = plate_a();
    one_way.remove(0, 1);
    let mut short_sum = plate_a();
    short_sum.link(1, 0).fraction = 65_535;
    for calls in ALL {
        assert_eq!((calls.check)(&[]), refused(1, 0), "{}", calls.name);
        assert_eq!((calls.check)(&sheet[..73]), refused(1, 73), "{}", calls.name);
        assert_eq!((calls.check)(&longer), refused(5, 74), "{}", calls.name);
        // Link 0 is now (0,2); link 1 is (1,0), whose opposite is gone.
        assert_eq!((calls.check)(&one_way.write()), refused(6, 1), "{}", calls.name);
        assert_eq!((calls.check)(&short_sum.write()), refused(7, 1), "{}", calls.name);
        assert_eq!((calls.next)(&sheet, &mut [0; 73]), refused(9, 74), "{}", calls.name);
    }
}

/// The lines of the listing that document 01 shows for plate A.
#[test]
fn listing_of_plate_a() {
    let shown = "from to before after\n0 1 0 0\n0 2 0 0\n1 0 65536 58368\n1 2 0 7168\n2 0 65536 65536\n2 1 0 0\n";
    for calls in ALL {
        assert_eq!(listing(&calls, &plate_a()), shown, "{}", calls.name);
    }
}

fn listing(calls: &Calls, draft: &Draft) -> String {
    let next = after_round(calls, draft);
    let mut text = String::from("from to before after\n");
    let records = next[draft.end() - 8 * draft.links.len()..].chunks_exact(8);
    for (link, record) in draft.links.iter().zip(records) {
        let after = u32::from_be_bytes([record[4], record[5], record[6], record[7]]);
        text += &format!("{} {} {} {after}\n", link.from, link.to, link.fraction);
    }
    text
}
