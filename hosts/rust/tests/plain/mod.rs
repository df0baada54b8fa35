//! The plain router of bench/plain.rs, which goes over every point of a foil, and what is written here around it: the
//! eight foils of a sheet, the state check, and the calls that a job file has no step for. Nothing is taken over from
//! one call to the next: what a call comes to is read from the lists as they are lent.
#![allow(dead_code)]
include!("../../../../bench/plain.rs");

use keyfoil::lent::{Board, Entry as Lent, Ink, OldBoard, Records};

const SHEET: usize = 512;
const SURE: usize = 32;
const WISHES: usize = 40;
const REPORT: usize = 128;

/// What a call is lent: the records, the table, the strips of the foil called, and lists for corners, answers, bytes.
#[derive(Clone, PartialEq, Eq, Debug)]
pub struct Lists {
    pub records: Records,
    pub table: Vec<Lent>,
    pub strips: Vec<u16>,
    pub corners: Vec<u16>,
    pub answers: Vec<u16>,
    pub bytes: Vec<u8>,
}

/// A call on a foil of a sheet.
#[derive(Clone, Debug)]
pub enum Call {
    NewFoil(u16, u16, u16, u16),
    Draw(u16, u16, u16, u16),
    Lay(u16, (u16, u16), (u16, u16)),
    List(Vec<u16>),
    Join(u16, (u16, u16)),
    Find((u16, u16), (u16, u16)),
    Book(Vec<u16>, u16),
    Lift(u16),
    PutLeg(Lent),
    LookUp((u16, u16)),
    Save,
    Slip,
    Ohms(u16, Ink),
    Run(Vec<u8>, usize),
}

/// What it answers: a refusal, or what came of it.
#[derive(Clone, PartialEq, Eq, Debug)]
pub enum Said {
    Refused(u8),
    Accepted,
    Bent(usize, usize),
    Place(usize),
    Bytes(usize),
    Ohms(u64),
    End,
    Ran([Option<Box<Said>>; 5], Option<usize>),
}

use Said::{Accepted, Bent, Bytes, End, Ohms, Place, Ran, Refused};

impl Lists {
    // Where the entries of foil k begin, and how many they are; none if they are not all in the table.
    fn rows(&self, k: usize) -> Option<&[Lent]> {
        let start: usize = self.records.boards[..k].iter().map(|b| b.entries).sum();
        self.table.get(start..start + self.records.boards[k].entries)
    }

    // Whether the numbers of entries keep the limits of the foils and of the sheet.
    fn counts_fit(&self) -> bool {
        let counts = self.records.boards.map(|b| b.entries);
        counts.iter().all(|&n| n <= ENTRIES) && counts.iter().map(|&n| n.max(SURE)).sum::<usize>() <= SHEET
    }

    // The entries that foil k may have beside the others.
    fn limit(&self, k: usize) -> usize {
        let others: usize = (0..8).filter(|&i| i != k).map(|i| self.records.boards[i].entries.max(SURE)).sum();
        ENTRIES.min(SHEET - others)
    }

    // Foil k as it is held, none if it is no foil's state.
    fn held(&self, k: usize) -> Option<Foil> {
        let b = self.records.boards[k];
        let on = |n: u16| (1..=4096).contains(&n);
        if !on(b.width) || !on(b.height) || b.half > 7 || b.gap > 15 {
            return None;
        }
        let row = plain_row(self.rows(k)?);
        let foil = Foil { w: b.width.into(), h: b.height.into(), half: b.half.into(), gap: b.gap.into(), row };
        let crossed = foil.row.iter().any(|p| foil.row.iter().any(|e| foil.crosses(p, e)));
        if !well_formed(&foil) || crossed || !lists(&self.strips, b.strips, &foil.strips()) {
            return None;
        }
        Some(foil)
    }

    // Lays foil k down: the other rows in their order, unused places of the 512 zero.
    fn put(&mut self, k: usize, foil: &Foil) {
        let mut rows: Vec<Vec<Lent>> = (0..8).map(|i| self.rows(i).expect("the counts fit").to_vec()).collect();
        rows[k] = foil.row.iter().map(lent_entry).collect();
        let strips = foil.strips();
        self.records.boards[k] = Board {
            width: foil.w as u16,
            height: foil.h as u16,
            half: foil.half as u16,
            gap: foil.gap as u16,
            entries: foil.row.len(),
            strips: strips.len(),
        };
        let flat: Vec<Lent> = rows.concat();
        for (i, place) in self.table[..SHEET].iter_mut().enumerate() {
            *place = flat.get(i).copied().unwrap_or_default();
        }
        put_strips(&mut self.strips, &strips);
    }
}

fn lent_entry(e: &Entry) -> Lent {
    Lent { net: e.net as u16, x0: e.x0 as u16, y0: e.y0 as u16, x1: e.x1 as u16, y1: e.y1 as u16 }
}

fn plain_row(rows: &[Lent]) -> Vec<Entry> {
    let plain =
        |e: &Lent| Entry { net: e.net.into(), x0: e.x0.into(), y0: e.y0.into(), x1: e.x1.into(), y1: e.y1.into() };
    rows.iter().map(plain).collect()
}

// Whether the entries have the shapes of patches and legs on the foil.
fn well_formed(foil: &Foil) -> bool {
    foil.row.iter().all(|e| {
        e.x0 < e.x1
            && e.x1 <= foil.w
            && e.y0 < e.y1
            && e.y1 <= foil.h
            && e.net <= 999
            && (e.net == 0 || e.x1 == e.x0 + 1 || e.y1 == e.y0 + 1)
    })
}

// Whether a strip list has these strips and then zeros up to 4,096.
fn lists(numbers: &[u16], count: usize, strips: &[[usize; 4]]) -> bool {
    count == strips.len()
        && numbers[..4 * STRIPS]
            .iter()
            .zip(strips.concat().into_iter().chain(std::iter::repeat(0)))
            .all(|(&n, m)| n as usize == m)
}

fn put_strips(numbers: &mut [u16], strips: &[[usize; 4]]) {
    let flat = strips.concat();
    for (i, place) in numbers[..4 * STRIPS].iter_mut().enumerate() {
        *place = flat.get(i).map_or(0, |&n| n as u16);
    }
}

fn put_corners(to: &mut [u16], corners: &[Point]) -> Said {
    for (k, &(x, y)) in corners.iter().enumerate() {
        to[2 * k] = x as u16;
        to[2 * k + 1] = y as u16;
    }
    Bent(corners.len(), corners.len().saturating_sub(2))
}

fn wide((x, y): (u16, u16)) -> Point {
    (x.into(), y.into())
}

// The legs of a way: one of a single point where it has one corner.
fn legs(net: usize, corners: &[Point]) -> Vec<Entry> {
    (0..(corners.len() - 1).max(1))
        .map(|k| {
            let (a, b) = (corners[k], corners[(k + 1).min(corners.len() - 1)]);
            Entry { net, x0: a.0.min(b.0), y0: a.1.min(b.1), x1: a.0.max(b.0) + 1, y1: a.1.max(b.1) + 1 }
        })
        .collect()
}

fn length(corners: &[Point]) -> usize {
    corners.windows(2).map(|c| c[0].0.abs_diff(c[1].0) + c[0].1.abs_diff(c[1].1)).sum()
}

// Whether corners are a way over the points that are free.
fn is_way(foil: &Foil, free: &[bool], corners: &[Point]) -> bool {
    let open = |x: usize, y: usize| x < foil.w && y < foil.h && free[y * foil.w + x];
    let level = |c: &[Point]| c[0].1 == c[1].1;
    !corners.is_empty()
        && corners.iter().all(|&(x, y)| open(x, y))
        && corners.windows(2).all(|c| {
            let ((ax, ay), (bx, by)) = (c[0], c[1]);
            (ax == bx) != (ay == by) && (ax.min(bx)..=ax.max(bx)).all(|x| (ay.min(by)..=ay.max(by)).all(|y| open(x, y)))
        })
        && corners.windows(3).all(|c| level(&c[..2]) != level(&c[1..]))
}

// The first path from S to any point of the net's legs, over points that the others leave free, or the refusal.
fn joined(foil: &Foil, net: usize, s: Point) -> Result<Vec<Point>, u8> {
    let others = Foil { row: foil.row.iter().copied().filter(|e| e.net != net).collect(), ..*foil };
    let free = others.free_points();
    if s.0 >= foil.w || s.1 >= foil.h {
        return Err(7);
    }
    if !free[s.1 * foil.w + s.0] {
        return Err(8);
    }
    let search = Search { w: foil.w, h: foil.h, free };
    let mut ends: Vec<Point> = foil
        .row
        .iter()
        .filter(|e| e.net == net)
        .flat_map(|e| (e.y0..e.y1).flat_map(move |y| (e.x0..e.x1).map(move |x| (x, y))))
        .filter(|&(x, y)| search.free[y * foil.w + x])
        .collect();
    ends.sort();
    ends.dedup();
    let order =
        |c: &Vec<Point>| (c.len().saturating_sub(2), length(c), c.iter().map(|&(x, y)| (y, x)).collect::<Vec<_>>());
    ends.into_iter().filter_map(|t| search.first_path(s, t)).min_by_key(order).ok_or(9)
}

// The foil with this row, unless it has too many entries (10) or strips (11).
fn booked(foil: &Foil, row: Vec<Entry>, limit: usize) -> Result<Foil, u8> {
    if row.len() > limit {
        return Err(10);
    }
    let after = Foil { row, ..*foil };
    if after.strips().len() > STRIPS {
        return Err(11);
    }
    Ok(after)
}

fn with(foil: &Foil, more: Vec<Entry>) -> Vec<Entry> {
    foil.row.iter().copied().chain(more).collect()
}

fn net_refused(net: usize) -> Result<(), u8> {
    if (1..=999).contains(&net) {
        Ok(())
    } else {
        Err(4)
    }
}

fn draws(foil: &Foil, limit: usize, e: Entry) -> Result<Foil, u8> {
    let leg = e.net != 0;
    let on = e.x0 < e.x1 && e.x1 <= foil.w && e.y0 < e.y1 && e.y1 <= foil.h;
    if !on || (leg && e.x1 - e.x0 > 1 && e.y1 - e.y0 > 1) {
        return Err(3);
    }
    if foil.row.iter().any(|o| if leg { foil.crosses(o, &e) } else { foil.crosses(&e, o) }) {
        return Err(21);
    }
    booked(foil, with(foil, vec![e]), limit)
}

fn lifts(foil: &Foil, net: usize) -> Result<Foil, u8> {
    net_refused(net)?;
    if !foil.row.iter().any(|e| e.net == net) {
        return Err(6);
    }
    booked(foil, foil.row.iter().copied().filter(|e| e.net != net).collect(), ENTRIES)
}

fn finds(foil: &Foil, s: Point, t: Point, places: usize) -> Result<Vec<Point>, u8> {
    let off = |p: Point| p.0 >= foil.w || p.1 >= foil.h;
    if off(s) || off(t) {
        return Err(7);
    }
    let free = foil.free_points();
    if !free[s.1 * foil.w + s.0] || !free[t.1 * foil.w + t.0] {
        return Err(8);
    }
    let corners = Search { w: foil.w, h: foil.h, free }.first_path(s, t).ok_or(9u8)?;
    if corners.len() > places {
        Err(12)
    } else {
        Ok(corners)
    }
}

fn lays(foil: &Foil, limit: usize, net: usize, s: Point, t: Point, places: usize) -> Result<(Vec<Point>, Foil), u8> {
    net_refused(net)?;
    if foil.row.iter().any(|e| e.net == net) {
        return Err(5);
    }
    let corners = finds(foil, s, t, places)?;
    let after = booked(foil, with(foil, legs(net, &corners)), limit)?;
    Ok((corners, after))
}

fn new_foil(w: u16, h: u16, half: u16, gap: u16, pen_number: u8) -> Result<Foil, u8> {
    let on = |n: u16| (1..=4096).contains(&n);
    if !on(w) || !on(h) {
        return Err(1);
    }
    if half > 7 || gap > 15 {
        return Err(pen_number);
    }
    Ok(Foil { w: w.into(), h: h.into(), half: half.into(), gap: gap.into(), row: Vec::new() })
}

fn file_of(foil: &Foil) -> Vec<u8> {
    let mut bytes = vec![0x21];
    let mut put = |map: Option<u8>, numbers: &[usize]| {
        bytes.extend(map);
        bytes.extend(numbers.iter().flat_map(|&n| (n as u16).to_le_bytes()));
    };
    put(None, &[foil.w, foil.h, 0, foil.half, foil.gap]);
    for e in &foil.row {
        match e.net {
            0 => put(Some(2), &[e.x0, e.y0, e.x1, e.y1]),
            net => put(Some(16), &[net, e.x0, e.y0, e.x1, e.y1]),
        }
    }
    bytes.push(0);
    bytes
}

fn steps(e: &Entry) -> usize {
    e.x1 - e.x0 - 1 + e.y1 - e.y0 - 1
}

fn slip_of(foil: &Foil) -> Vec<u8> {
    let mut text = String::new();
    for net in 1..=999 {
        let row: Vec<&Entry> = foil.row.iter().filter(|e| e.net == net).collect();
        if let Some(first) = row.first() {
            let total: usize = row.iter().map(|e| steps(e)).sum();
            text += &format!("{net:3}  {:3}  {total:6}  {:4}  {:4}    \n", row.len(), first.x0, first.y0);
        }
    }
    text.into_bytes()
}

fn ohms_of(foil: &Foil, net: usize, ink: Ink) -> Result<f64, u8> {
    net_refused(net)?;
    let row: Vec<&Entry> = foil.row.iter().filter(|e| e.net == net).collect();
    if row.is_empty() {
        return Err(6);
    }
    let in_range =
        ink.sheet > 0.0 && ink.sheet <= 1000.0 && (1.0..=64.0).contains(&ink.width) && (0.0..=4.0).contains(&ink.bend);
    if !in_range {
        return Err(22);
    }
    let total: usize = row.iter().map(|e| steps(e)).sum();
    Ok((total as f64 / ink.width + ink.bend * (row.len() - 1) as f64) * ink.sheet)
}

/// What a call on foil k comes to: its answer, and the lists after it.
pub fn made(call: &Call, k: usize, lists: &mut Lists) -> Said {
    match tried(call, k, lists) {
        Ok(said) => said,
        Err(number) => Refused(number),
    }
}

fn tried(call: &Call, k: usize, lists: &mut Lists) -> Result<Said, u8> {
    if k > 7 {
        return Err(23);
    }
    if matches!(call, Call::Run(job, _) if job.len() > BYTES) {
        return Err(18);
    }
    if matches!(call, Call::List(wishes) if wishes.len() / 5 > WISHES || wishes.len() / 5 > lists.answers.len() / 3) {
        return Err(12);
    }
    if lists.table.len() < SHEET || lists.strips.len() < 4 * STRIPS {
        return Err(12);
    }
    if !lists.counts_fit() {
        return Err(13);
    }
    let limit = lists.limit(k);
    if let Call::NewFoil(w, h, half, gap) = *call {
        let foil = new_foil(w, h, half, gap, 20)?;
        lists.put(k, &foil);
        return Ok(Accepted);
    }
    if let Call::Run(job, at) = call {
        if *at != 0 && lists.held(k).is_none() {
            return Err(13);
        }
        return ran(job, *at, k, lists);
    }
    let foil = lists.held(k).ok_or(13u8)?;
    let places = lists.corners.len() / 2;
    match call {
        Call::NewFoil(..) | Call::Run(..) => unreachable!("made above"),
        &Call::Draw(x0, y0, x1, y1) => {
            let patch = plain_row(&[Lent { net: 0, x0, y0, x1, y1 }])[0];
            lists.put(k, &draws(&foil, limit, patch)?);
            Ok(Accepted)
        }
        &Call::Lay(net, s, t) => {
            let (corners, after) = lays(&foil, limit, net.into(), wide(s), wide(t), places)?;
            lists.put(k, &after);
            Ok(put_corners(&mut lists.corners, &corners))
        }
        Call::List(wishes) => {
            let (mut foil, mut used) = (foil, 0);
            for (i, w) in wishes.chunks_exact(5).enumerate() {
                let told = lays(&foil, limit, w[0].into(), wide((w[1], w[2])), wide((w[3], w[4])), places - used);
                let numbers = match told {
                    Err(number) => [number.into(), 0, 0],
                    Ok((corners, after)) => {
                        lists.put(k, &after);
                        foil = after;
                        put_corners(&mut lists.corners[2 * used..], &corners);
                        used += corners.len();
                        [0, corners.len() as u16, corners.len().saturating_sub(2) as u16]
                    }
                };
                lists.answers[3 * i..3 * i + 3].copy_from_slice(&numbers);
            }
            Ok(Accepted)
        }
        &Call::Join(net, s) => {
            net_refused(net.into())?;
            if !foil.row.iter().any(|e| e.net == net as usize) {
                return Err(6);
            }
            let corners = joined(&foil, net.into(), wide(s))?;
            if corners.len() > places {
                return Err(12);
            }
            let after = booked(&foil, with(&foil, legs(net.into(), &corners)), limit)?;
            lists.put(k, &after);
            Ok(put_corners(&mut lists.corners, &corners))
        }
        &Call::Find(s, t) => {
            let corners = finds(&foil, wide(s), wide(t), places)?;
            Ok(put_corners(&mut lists.corners, &corners))
        }
        Call::Book(drawn, net) => {
            let net = usize::from(*net);
            net_refused(net)?;
            if foil.row.iter().any(|e| e.net == net) {
                return Err(5);
            }
            let corners: Vec<Point> = drawn.chunks_exact(2).map(|c| wide((c[0], c[1]))).collect();
            if drawn.len() % 2 == 1 || !is_way(&foil, &foil.free_points(), &corners) {
                return Err(19);
            }
            let after = booked(&foil, with(&foil, legs(net, &corners)), limit)?;
            lists.put(k, &after);
            Ok(Bent(corners.len(), corners.len().saturating_sub(2)))
        }
        &Call::Lift(net) => {
            lists.put(k, &lifts(&foil, net.into())?);
            Ok(Accepted)
        }
        Call::PutLeg(leg) => {
            net_refused(leg.net.into())?;
            lists.put(k, &draws(&foil, limit, plain_row(&[*leg])[0])?);
            Ok(Accepted)
        }
        &Call::LookUp(p) => {
            let (x, y) = wide(p);
            if x >= foil.w || y >= foil.h {
                return Err(7);
            }
            let holds = |s: &[usize; 4]| s[0] <= x && x < s[2] && s[1] <= y && y < s[3];
            foil.strips().iter().position(holds).map(Place).ok_or(8)
        }
        Call::Save => {
            let fine = |n: usize| Foil { row: foil.row[..n].to_vec(), ..foil }.strips().len() > STRIPS;
            if (0..=foil.row.len()).any(fine) {
                return Err(11);
            }
            put_bytes(&mut lists.bytes, &file_of(&foil))
        }
        Call::Slip => put_bytes(&mut lists.bytes, &slip_of(&foil)),
        &Call::Ohms(net, ink) => ohms_of(&foil, net.into(), ink).map(|ohms| Ohms(ohms.to_bits())),
    }
}

fn put_bytes(to: &mut [u8], bytes: &[u8]) -> Result<Said, u8> {
    if to.len() < bytes.len() {
        return Err(12);
    }
    to[..bytes.len()].copy_from_slice(bytes);
    Ok(Bytes(bytes.len()))
}

// A record: its checks, then its steps in turn.
fn ran(job: &[u8], at: usize, k: usize, lists: &mut Lists) -> Result<Said, u8> {
    let map = *job.get(at).ok_or(14u8)?;
    let has = |bit: usize| map >> bit & 1 == 1;
    if map > 63 {
        return Err(15);
    }
    if has(0) != (at == 0) || (has(5) && !has(0)) {
        return Err(16);
    }
    if map == 0 {
        return if at + 1 < job.len() { Err(17) } else { Ok(End) };
    }
    let size: usize = [3, 4, 5, 1, 5, 2].iter().enumerate().filter(|&(bit, _)| has(bit)).map(|(_, n)| 2 * n).sum();
    let fields = job.get(at + 1..at + 1 + size).ok_or(14u8)?;
    let numbers: Vec<u16> = fields.chunks(2).map(|b| u16::from_le_bytes([b[0], b[1]])).collect();
    let pen = if has(5) { Some((numbers[numbers.len() - 2], numbers[numbers.len() - 1])) } else { None };
    let mut numbers = numbers.into_iter();
    let mut number = || numbers.next().expect("all fields are there");
    let mut told: [Option<Box<Said>>; 5] = Default::default();
    let mut tell = |step: usize, said: Result<Said, u8>| told[step] = Some(Box::new(said.unwrap_or_else(Refused)));
    if has(0) {
        let (w, h, reach) = (number(), number(), number());
        let begun = match pen {
            Some((half, gap)) => new_foil(w, h, half, gap, 20),
            None => new_foil(w, h, 0, reach, 2),
        };
        match begun {
            Ok(foil) => lists.put(k, &foil),
            Err(number) => {
                tell(0, Err(number));
                return Ok(Ran(told, None));
            }
        }
        tell(0, Ok(Accepted));
    }
    // a step of a record is its call, on lists that are long enough and hold a foil
    let mut step = |call: Call| {
        let said = made(&call, k, lists);
        if let Refused(number) = said {
            Err(number)
        } else {
            Ok(said)
        }
    };
    if has(1) {
        tell(1, step(Call::Draw(number(), number(), number(), number())));
    }
    if has(2) {
        tell(2, step(Call::Lay(number(), (number(), number()), (number(), number()))));
    }
    if has(3) {
        tell(3, step(Call::Lift(number())));
    }
    if has(4) {
        let (net, x0, y0, x1, y1) = (number(), number(), number(), number(), number());
        tell(4, step(Call::PutLeg(Lent { net, x0, y0, x1, y1 })));
    }
    Ok(Ran(told, Some(at + 1 + size)))
}

/// What a carry of an old foil comes to: the refusal, or how many nets are lifted; and the lists after it, the report
/// among them as answers.
pub fn carried(old: &OldBoard, rows: &[Lent], listed: &[u16], lists: &mut Lists) -> Result<usize, u8> {
    let short = |table: &[Lent], strips: &[u16]| table.len() < ENTRIES || strips.len() < 4 * STRIPS;
    if short(rows, listed) || short(&lists.table, &lists.strips) || lists.answers.len() < REPORT {
        return Err(12);
    }
    let on = |n: u16| (1..=4096).contains(&n);
    if !on(old.width) || !on(old.height) || old.reach > 15 || old.entries > ENTRIES {
        return Err(13);
    }
    let row = plain_row(&rows[..old.entries]);
    let foil = Foil { w: old.width.into(), h: old.height.into(), half: 0, gap: old.reach.into(), row };
    let unused = rows[old.entries..ENTRIES].iter().all(|e| *e == Lent::default());
    if !well_formed(&foil) || !unused || !self::lists(listed, old.strips, &old_strips(&foil)) {
        return Err(13);
    }
    let crossed = |net: usize| foil.row.iter().any(|e| e.net == net && foil.row.iter().any(|p| foil.crosses(p, e)));
    let lifted: Vec<usize> = (1..=999).filter(|&net| crossed(net)).collect();
    let after = Foil { row: foil.row.iter().copied().filter(|e| !lifted.contains(&e.net)).collect(), ..foil };
    let strips = after.strips();
    if strips.len() > STRIPS {
        return Err(11);
    }
    lists.records.boards[0] = Board {
        width: old.width,
        height: old.height,
        half: 0,
        gap: old.reach,
        entries: after.row.len(),
        strips: strips.len(),
    };
    for (i, place) in lists.table[..ENTRIES].iter_mut().enumerate() {
        *place = after.row.get(i).map(lent_entry).unwrap_or_default();
    }
    put_strips(&mut lists.strips, &strips);
    for (place, &net) in lists.answers.iter_mut().zip(&lifted) {
        *place = net as u16;
    }
    Ok(lifted.len())
}

/// The strips of a foil by document 01's rules, under which the edge blocks nothing: those of a foil that is larger by
/// the reach on each side, moved back.
pub fn old_strips_of(old: &OldBoard, rows: &[Lent]) -> Vec<[usize; 4]> {
    let row = plain_row(&rows[..old.entries]);
    old_strips(&Foil { w: old.width.into(), h: old.height.into(), half: 0, gap: old.reach.into(), row })
}

fn old_strips(foil: &Foil) -> Vec<[usize; 4]> {
    let d = foil.gap;
    let moved = |e: &Entry| Entry { net: e.net, x0: e.x0 + d, y0: e.y0 + d, x1: e.x1 + d, y1: e.y1 + d };
    let wider =
        Foil { w: foil.w + 2 * d, h: foil.h + 2 * d, half: 0, gap: d, row: foil.row.iter().map(moved).collect() };
    wider.strips().into_iter().map(|s| s.map(|n| n - d)).collect()
}
