//! Thousands of random calls beside the plain router: every answer, and every list after it, on lists that are long
//! enough, longer, or too short, and on states that were spoilt.
mod plain;

use keyfoil::lent::{self, Entry, Ink, Lent, OldBoard, Records, Shown};
use keyfoil::{Bent, Pen, Record, Refusal};
use plain::{made, Call, Lists, Said};

// Numbers at random, the same on each run.
struct Chance(u64);

impl Chance {
    fn below(&mut self, n: usize) -> usize {
        self.0 = self.0.wrapping_mul(6364136223846793005).wrapping_add(1442695040888963407);
        (self.0 >> 33) as usize % n
    }

    fn one_in(&mut self, n: usize) -> bool {
        self.below(n) == 0
    }

    fn of<T: Copy>(&mut self, these: &[T]) -> T {
        these[self.below(these.len())]
    }
}

// What a sheet has between calls: the strips of each foil.
#[derive(Clone)]
struct Kept {
    records: Records,
    table: Vec<Entry>,
    strips: Vec<Vec<u16>>,
}

fn said<T>(answer: Result<T, Refusal>, accepted: impl FnOnce(T) -> Said) -> Said {
    answer.map_or_else(|refusal| Said::Refused(refusal.number()), accepted)
}

fn bent(b: Bent) -> Said {
    Said::Bent(b.corners, b.bends)
}

// Makes a call by the library.
fn called(call: &Call, k: usize, lists: &mut Lists) -> Said {
    let Lists { records, table, strips, corners, answers, bytes } = lists;
    let shown = Shown { records, table, strips };
    match call {
        &Call::Find(s, t) => return said(lent::find(shown, corners, k, s, t), bent),
        &Call::LookUp(p) => return said(lent::look_up(shown, k, p), Said::Place),
        Call::Save => return said(lent::save(shown, bytes, k), Said::Bytes),
        Call::Slip => return said(lent::slip(shown, bytes, k), Said::Bytes),
        &Call::Ohms(net, ink) => return said(lent::ohms(shown, k, net, ink), |ohms| Said::Ohms(ohms.to_bits())),
        _ => {}
    }
    let lent = Lent { records, table, strips };
    let done = |()| Said::Accepted;
    match call {
        &Call::NewFoil(w, h, half, gap) => said(lent::new_foil(lent, k, w, h, Pen { half, gap }), done),
        &Call::Draw(x0, y0, x1, y1) => said(lent::draw(lent, k, x0, y0, x1, y1), done),
        &Call::Lay(net, s, t) => said(lent::lay(lent, corners, k, net, s, t), bent),
        Call::List(wishes) => said(lent::lay_list(lent, corners, answers, wishes, k), done),
        &Call::Join(net, s) => said(lent::join(lent, corners, k, net, s), bent),
        Call::Book(drawn, net) => said(lent::book(lent, drawn, k, *net), bent),
        &Call::Lift(net) => said(lent::lift(lent, k, net), done),
        &Call::PutLeg(leg) => said(lent::put_leg(lent, k, leg), done),
        Call::Run(job, at) => said(lent::run_record(lent, corners, job, k, *at), |record| match record {
            Record::End => Said::End,
            Record::Ran(s) => {
                let plain = |step: Option<Result<(), Refusal>>| step.map(|told| Box::new(said(told, done)));
                let track = s.track.map(|told| Box::new(said(told, bent)));
                Said::Ran([plain(s.board), plain(s.patch), track, plain(s.lift), plain(s.leg)], s.next)
            }
        }),
        _ => unreachable!("made above"),
    }
}

// A call at random, on a foil of about this size.
fn a_call(c: &mut Chance, board: lent::Board) -> Call {
    let (w, h) = (usize::from(board.width).clamp(1, 60), usize::from(board.height).clamp(1, 60));
    let point = |c: &mut Chance| {
        let past = usize::from(c.one_in(9));
        (c.below(w + past) as u16, c.below(h + past) as u16)
    };
    let net =
        |c: &mut Chance| if c.one_in(25) { c.of(&[0, 1000, 65535]) } else { c.of(&[1, 2, 3, 4, 5, 6, 7, 8, 9, 999]) };
    let area = |c: &mut Chance| {
        let (x0, y0) = point(c);
        (x0, y0, x0 + c.below(4) as u16 + u16::from(!c.one_in(20)), y0 + c.below(4) as u16 + u16::from(!c.one_in(20)))
    };
    let leg = |c: &mut Chance| {
        let (x0, y0) = point(c);
        let long = 1 + c.below(6) as u16;
        let (dx, dy) = if c.one_in(20) { (2, 2) } else { c.of(&[(1, long), (long, 1)]) };
        Entry { net: net(c), x0, y0, x1: x0 + dx, y1: y0 + dy }
    };
    let size = |c: &mut Chance| if c.one_in(30) { c.of(&[0, 4097, 65535]) } else { 1 + c.below(18) as u16 };
    let pen = |c: &mut Chance| match c.below(12) {
        0 => (c.below(10) as u16, c.below(18) as u16),
        1..=3 => (c.below(2) as u16, c.below(3) as u16),
        _ => (0, c.below(2) as u16),
    };
    match c.below(40) {
        0..=8 => Call::Lay(net(c), point(c), point(c)),
        9..=14 => {
            let (x0, y0, x1, y1) = area(c);
            Call::Draw(x0, y0, x1, y1)
        }
        15..=18 => Call::Lift(net(c)),
        19..=22 => Call::Join(net(c), point(c)),
        23..=24 => Call::Find(point(c), point(c)),
        25..=26 => {
            let count = if c.one_in(40) { 41 } else { c.below(7) };
            let mut wishes: Vec<u16> = Vec::new();
            for _ in 0..count {
                let ((sx, sy), (tx, ty)) = (point(c), point(c));
                wishes.extend([net(c), sx, sy, tx, ty]);
            }
            wishes.extend(vec![7; if c.one_in(5) { c.below(5) } else { 0 }]);
            Call::List(wishes)
        }
        27..=29 => {
            let mut corners = Vec::new();
            let (mut x, mut y) = point(c);
            let mut level = c.one_in(2);
            for _ in 0..c.below(6) {
                corners.extend([x, y]);
                if level != c.one_in(15) {
                    x = c.below(w) as u16;
                } else {
                    y = c.below(h) as u16;
                }
                level = !level;
            }
            corners.extend(vec![0; usize::from(c.one_in(15))]);
            Call::Book(corners, net(c))
        }
        30..=31 => Call::PutLeg(leg(c)),
        32 => Call::LookUp(point(c)),
        33 => Call::Save,
        34 => Call::Slip,
        35 => {
            let sheet = c.of(&[0.5, 0.1, 1000.0, 1000.1, 0.0, f64::NAN, 3.0]);
            let width = c.of(&[1.0, 2.0, 3.0, 64.0, 64.5, 0.9, f64::INFINITY]);
            Call::Ohms(net(c), Ink { sheet, width, bend: c.of(&[0.0, 0.7, 4.0, 4.1, -0.0, -1.0, 0.5]) })
        }
        36..=37 => {
            let (half, gap) = pen(c);
            Call::NewFoil(size(c), size(c), half, gap)
        }
        _ => {
            let at = if c.one_in(3) { 0 } else { 1 + c.below(9) };
            let mut map = c.below(32) as u8 & !1 | u8::from(at == 0);
            if at == 0 && c.one_in(2) {
                map |= 32;
            }
            if c.one_in(12) {
                map = c.below(256) as u8;
            }
            let (half, gap) = pen(c);
            let ((px0, py0, px1, py1), (s, t), lifted, e) = (area(c), (point(c), point(c)), net(c), leg(c));
            let fields: [Vec<u16>; 6] = [
                vec![size(c), size(c), c.of(&[0, 0, 1, 2, 15, 16])],
                vec![px0, py0, px1, py1],
                vec![net(c), s.0, s.1, t.0, t.1],
                vec![lifted],
                vec![e.net, e.x0, e.y0, e.x1, e.y1],
                vec![half, gap],
            ];
            let mut job: Vec<u8> = (0..at).map(|_| c.below(256) as u8).collect();
            job.push(map);
            for (_, numbers) in fields.iter().enumerate().filter(|(bit, _)| map >> bit & 1 == 1) {
                job.extend(numbers.iter().flat_map(|n| n.to_le_bytes()));
            }
            match c.below(12) {
                0 => job.truncate(c.below(job.len() + 1)),
                1..=4 => job.extend([0, 3]),
                _ => {}
            }
            if c.one_in(60) {
                job.resize(60001, 0);
            }
            Call::Run(job, at)
        }
    }
}

// Changes one number of the records, the table or the strips.
fn spoil(c: &mut Chance, kept: &mut Kept, k: usize) {
    let any = c.of(&[0, 1, 2, 3, 16, 999, 1000, 4097, 65535]);
    let board = &mut kept.records.boards[if c.one_in(3) { c.below(8) } else { k }];
    match c.below(9) {
        0 => board.width = any,
        1 => board.height = any,
        2 => board.half = any,
        3 => board.gap = any,
        4 => board.entries = c.of(&[0, 1, 129, 512, usize::MAX / 8]),
        5 => board.strips = c.of(&[0, 1, 4096, 4097, usize::MAX]),
        6 | 7 => {
            let used: usize = kept.records.boards.iter().map(|b| b.entries).sum();
            let e = &mut kept.table[c.below(used.clamp(1, 512))];
            *[&mut e.net, &mut e.x0, &mut e.y0, &mut e.x1, &mut e.y1][c.below(5)] = any;
        }
        _ => kept.strips[k][if c.one_in(3) { c.below(16384) } else { c.below(12) }] = any,
    }
}

// How long the lists are that are lent, and what for: long enough, longer, or too short.
fn lent_for(c: &mut Chance, kept: &Kept, k: usize) -> Lists {
    let mut table = kept.table.clone();
    let mut strips = kept.strips[k % 8].clone();
    let length = |c: &mut Chance, whole: usize| match c.below(40) {
        0 => whole - 1,
        1 => c.below(whole),
        2..=6 => whole + c.below(9),
        _ => whole,
    };
    table.resize(length(c, 512), Entry { net: 8, x0: 7, y0: 6, x1: 5, y1: 4 });
    strips.resize(length(c, 16384), 4711);
    let corners = if c.one_in(4) { c.below(12) } else { 400 };
    let answers = if c.one_in(6) { c.below(20) } else { 3 * 41 };
    let bytes = if c.one_in(3) { c.below(200) } else { 33 * 128 };
    Lists {
        records: kept.records,
        table,
        strips,
        corners: vec![0xa5a5; corners],
        answers: vec![0xa5a5; answers],
        bytes: vec![0xa5; bytes],
    }
}

#[derive(Default)]
struct Tally {
    accepted: usize,
    refused: [usize; 24],
}

// Makes a call by both, on the same lists, and sees that they agree; then keeps what they left.
fn compare(c: &mut Chance, call: &Call, k: usize, kept: &mut Kept, tally: &mut Tally) {
    let before = lent_for(c, kept, k);
    let (mut by_library, mut by_plain) = (before.clone(), before);
    let (told, plainly) = (called(call, k, &mut by_library), made(call, k, &mut by_plain));
    assert_eq!(plainly, told, "{call:?} on foil {k}");
    assert!(by_plain == by_library, "the lists after {call:?} on foil {k}");
    match told {
        Said::Refused(number) => tally.refused[usize::from(number)] += 1,
        Said::Ran(steps, _) => {
            for step in steps.into_iter().flatten() {
                match *step {
                    Said::Refused(number) => tally.refused[usize::from(number)] += 1,
                    _ => tally.accepted += 1,
                }
            }
        }
        _ => tally.accepted += 1,
    }
    kept.records = by_library.records;
    let (places, numbers) = (by_library.table.len().min(512), by_library.strips.len().min(16384));
    kept.table[..places].copy_from_slice(&by_library.table[..places]);
    kept.strips[k % 8][..numbers].copy_from_slice(&by_library.strips[..numbers]);
}

fn empty() -> Kept {
    Kept { records: Records::default(), table: vec![Entry::default(); 512], strips: vec![vec![0; 16384]; 8] }
}

#[test]
fn calls_on_sheets() {
    keyfoil::with_stack(|| {
        let mut c = Chance(1);
        let mut tally = Tally::default();
        for _ in 0..120 {
            let mut kept = empty();
            for k in 0..8 {
                if !c.one_in(6) {
                    let call = Call::NewFoil(4 + c.below(14) as u16, 4 + c.below(14) as u16, 0, c.below(2) as u16);
                    compare(&mut c, &call, k, &mut kept, &mut tally);
                }
            }
            for _ in 0..300 {
                let k = if c.one_in(60) { 8 + c.below(3) } else { c.of(&[0, 0, 0, 1, 2, 3, 4, 5, 6, 7]) };
                let call = a_call(&mut c, kept.records.boards[k % 8]);
                if c.one_in(12) {
                    let mut spoilt = kept.clone();
                    spoil(&mut c, &mut spoilt, k % 8);
                    compare(&mut c, &call, k, &mut spoilt, &mut tally);
                } else {
                    compare(&mut c, &call, k, &mut kept, &mut tally);
                }
            }
        }
        println!("{} accepted, refused by number {:?}", tally.accepted, tally.refused);
        assert!(tally.accepted > 10_000);
        // all but 11, which takes thousands of strips, and 10, which takes a full table: full_sheets has that
        for number in (1..=9).chain(12..=23) {
            assert!(tally.refused[number] > 0, "no call met {number}");
        }
    });
}

#[test]
fn full_sheets() {
    keyfoil::with_stack(|| {
        let mut c = Chance(2);
        let mut tally = Tally::default();
        for _ in 0..3 {
            let mut kept = empty();
            for k in 0..8 {
                compare(&mut c, &Call::NewFoil(40, 30, 0, 0), k, &mut kept, &mut tally);
            }
            for n in 0..900u16 {
                let k = c.of(&[0, 1, 1, 2, 3, 4, 5, 6, 7]);
                let (x, y) = (n % 40, n / 40);
                compare(&mut c, &Call::Draw(x, y, x + 1, y + 1), k, &mut kept, &mut tally);
                if c.one_in(3) {
                    let call = a_call(&mut c, kept.records.boards[k]);
                    if !matches!(call, Call::NewFoil(..) | Call::Run(..)) {
                        compare(&mut c, &call, k, &mut kept, &mut tally);
                    }
                }
            }
        }
        println!("{} accepted, refused by number {:?}", tally.accepted, tally.refused);
        assert!(tally.refused[10] > 100);
    });
}

#[test]
fn old_foils_carried_over() {
    let mut c = Chance(3);
    let (mut accepted, mut lifted, mut refused) = (0, 0, [0; 24]);
    for _ in 0..3000 {
        let (w, h) = (1 + c.below(14) as u16, 1 + c.below(14) as u16);
        let mut old = OldBoard { width: w, height: h, reach: c.of(&[0, 0, 1, 2, 15]), entries: c.below(9), strips: 0 };
        let mut rows = vec![Entry::default(); 128 + c.below(3)];
        for e in &mut rows[..old.entries] {
            let (x0, y0) = (c.below(w.into()) as u16, c.below(h.into()) as u16);
            let net = c.of(&[0, 0, 5, 9, 7, 999]);
            let (x1, y1) = match net {
                0 => (x0 + 1 + c.below((w - x0).into()) as u16, y0 + 1 + c.below(2.min(h - y0).into()) as u16),
                _ if c.one_in(2) => (x0 + 1, y0 + 1 + c.below((h - y0).into()) as u16),
                _ => (x0 + 1 + c.below((w - x0).into()) as u16, y0 + 1),
            };
            *e = Entry { net, x0, y0, x1, y1 };
        }
        let mut strips: Vec<u16> = plain::old_strips_of(&old, &rows).concat().iter().map(|&n| n as u16).collect();
        old.strips = strips.len() / 4;
        strips.resize(16384 + c.below(3), 0);
        let any = c.of(&[0, 1, 2, 16, 1000, 4097]);
        match c.below(14) {
            0 => old.width = any,
            1 => old.reach = any,
            2 => old.entries = c.of(&[0, 1, 8, 128, 129, usize::MAX]),
            3 => old.strips = c.of(&[0, 1, 4096, 4097, usize::MAX]),
            4 => {
                let place = c.below(9);
                rows[place].x1 = any;
            }
            5 => strips[c.below(8)] = any,
            6 => rows.truncate(c.of(&[127, 128])),
            7 => strips.truncate(c.of(&[16383, 16384])),
            _ => {}
        }
        let before = Lists {
            records: Records::default(),
            table: vec![Entry { net: 8, x0: 7, y0: 6, x1: 5, y1: 4 }; if c.one_in(20) { 127 } else { 512 }],
            strips: vec![4711; if c.one_in(20) { 16383 } else { 16390 }],
            corners: Vec::new(),
            answers: vec![0xa5a5; if c.one_in(20) { 127 } else { 130 }],
            bytes: Vec::new(),
        };
        let (mut by_library, mut by_plain) = (before.clone(), before);
        let Lists { records, table, strips: new_strips, answers, .. } = &mut by_library;
        let fresh = lent::Fresh { board: &mut records.boards[0], table, strips: new_strips, report: answers };
        let told = lent::carry(fresh, lent::Old { board: old, table: &rows, strips: &strips });
        let plainly = plain::carried(&old, &rows, &strips, &mut by_plain);
        assert_eq!(plainly, told.map_err(Refusal::number), "{old:?} {:?}", &rows[..old.entries.min(9)]);
        assert!(by_plain == by_library, "the lists after a carry of {old:?}");
        match told {
            Ok(nets) => {
                accepted += 1;
                lifted += nets;
            }
            Err(refusal) => refused[usize::from(refusal.number())] += 1,
        }
    }
    println!("{accepted} carried over, {lifted} nets lifted, refused by number {refused:?}");
    assert!(accepted > 1000 && lifted > 500 && refused[12] > 100 && refused[13] > 100);
}
