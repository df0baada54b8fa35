//! A sheet of eight foils that owns its lists.
use crate::answers::{Bent, Pen, Point, Record, Refusal, Steps, Strip, Way, Wish};
use crate::lent::{self, Board, Entry, Fresh, Ink, Lent, Old, OldBoard, Records, Shown};
use crate::limits::{
    CORNER_NUMBERS, ENTRIES, FILE_BYTES, FOILS, PLACES, REPORT, SLIP_BYTES, STRIPS, STRIP_NUMBERS, WISHES,
};

/// Eight foils, numbered 0 to 7, with all that the calls on them are lent. A call on another number is refused (23).
#[derive(Clone, Debug, PartialEq, Eq)]
pub struct Sheet {
    records: Records,
    table: Vec<Entry>,
    strips: Vec<Vec<u16>>,
}

impl Default for Sheet {
    fn default() -> Self {
        Sheet::new()
    }
}

// The corners at the front of a list.
fn points(corners: &[u16], count: usize) -> Vec<Point> {
    corners.chunks_exact(2).take(count).map(|c| (c[0], c[1])).collect()
}

fn way(corners: &[u16], bent: Bent) -> Way {
    Way { corners: points(corners, bent.corners), bends: bent.bends }
}

fn corner_places() -> Vec<u16> {
    vec![0; CORNER_NUMBERS]
}

// The place of the strips that are lent for foil k: a number past the last foil has none of its own.
fn strips_place(k: usize) -> usize {
    if k < FOILS {
        k
    } else {
        0
    }
}

impl Sheet {
    /// A sheet on which no foil is begun.
    pub fn new() -> Sheet {
        Sheet {
            records: Records::default(),
            table: vec![Entry::default(); PLACES],
            strips: vec![vec![0; STRIP_NUMBERS]; FOILS],
        }
    }

    /// A sheet on which foil 0 is a foil that was begun under document 01's rules, carried over; and the nets that were
    /// lifted, rising.
    pub fn carried(w: u16, h: u16, reach: u16, row: &[Entry], old: &[Strip]) -> Result<(Sheet, Vec<u16>), Refusal> {
        let mut sheet = Sheet::new();
        let mut table = row.to_vec();
        table.resize(row.len().max(ENTRIES), Entry::default());
        let mut strips: Vec<u16> = old.iter().flat_map(|s| [s.x0, s.y0, s.x1, s.y1]).collect();
        strips.resize(4 * old.len().max(STRIPS), 0);
        let board = OldBoard { width: w, height: h, reach, entries: row.len(), strips: old.len() };
        let mut report = vec![0; REPORT];
        let fresh = Fresh {
            board: &mut sheet.records.boards[0],
            table: &mut sheet.table,
            strips: &mut sheet.strips[0],
            report: &mut report,
        };
        let lifted = lent::carry(fresh, Old { board, table: &table, strips: &strips })?;
        report.truncate(lifted);
        Ok((sheet, report))
    }

    fn lent(&mut self, k: usize) -> Lent<'_> {
        Lent { records: &mut self.records, table: &mut self.table, strips: &mut self.strips[strips_place(k)] }
    }

    fn shown(&self, k: usize) -> Shown<'_> {
        Shown { records: &self.records, table: &self.table, strips: &self.strips[strips_place(k)] }
    }

    /// The record of foil k; all zero where it is not begun or there is no such foil.
    pub fn board(&self, k: usize) -> Board {
        self.records.boards.get(k).copied().unwrap_or_default()
    }

    /// The entries of foil k, in the table's order: patches (net 0) and legs.
    pub fn entries(&self, k: usize) -> &[Entry] {
        let start = (0..k.min(FOILS)).map(|i| self.board(i).entries).sum();
        &self.table[start..start + self.board(k).entries]
    }

    /// The strips of foil k: its free points, by y0 and then x0.
    pub fn strips(&self, k: usize) -> Vec<Strip> {
        let numbers = &self.strips[strips_place(k)][..4 * self.board(k).strips];
        numbers.chunks_exact(4).map(|s| Strip { x0: s[0], y0: s[1], x1: s[2], y1: s[3] }).collect()
    }

    /// Begins foil k, w by h points, for a pen. What the foil had is gone.
    pub fn new_foil(&mut self, k: usize, w: u16, h: u16, pen: Pen) -> Result<(), Refusal> {
        lent::new_foil(self.lent(k), k, w, h, pen)
    }

    /// Draws a patch.
    pub fn draw(&mut self, k: usize, x0: u16, y0: u16, x1: u16, y1: u16) -> Result<(), Refusal> {
        lent::draw(self.lent(k), k, x0, y0, x1, y1)
    }

    /// Lays a track of the net.
    pub fn lay(&mut self, k: usize, net: u16, start: Point, end: Point) -> Result<Way, Refusal> {
        let mut corners = corner_places();
        lent::lay(self.lent(k), &mut corners, k, net, start, end).map(|bent| way(&corners, bent))
    }

    /// Lays the nets of a list one after the other: the answer to each. Refused are lists as a whole.
    pub fn lay_list(&mut self, k: usize, wishes: &[Wish]) -> Result<Vec<Result<Way, Refusal>>, Refusal> {
        let flat: Vec<u16> = wishes.iter().flat_map(|w| [w.net, w.start.0, w.start.1, w.end.0, w.end.1]).collect();
        let mut answers = vec![0; 3 * wishes.len()];
        // a longer list is refused
        let mut corners = vec![0; CORNER_NUMBERS * wishes.len().min(WISHES)];
        lent::lay_list(self.lent(k), &mut corners, &mut answers, &flat, k)?;
        let mut rest = &corners[..];
        Ok(answers
            .chunks_exact(3)
            .map(|told| {
                let bent = Bent { corners: told[1].into(), bends: told[2].into() };
                let front = rest;
                rest = &rest[2 * bent.corners..];
                lent::accepted(told[0] as u8).map(|()| way(front, bent))
            })
            .collect())
    }

    /// Joins a point to a net that is on the foil.
    pub fn join(&mut self, k: usize, net: u16, point: Point) -> Result<Way, Refusal> {
        let mut corners = corner_places();
        lent::join(self.lent(k), &mut corners, k, net, point).map(|bent| way(&corners, bent))
    }

    /// Books a drawing, the corners of a way, as a track of the net: how many corners and bends it has.
    pub fn book(&mut self, k: usize, net: u16, corners: &[Point]) -> Result<Bent, Refusal> {
        let flat: Vec<u16> = corners.iter().flat_map(|c| [c.0, c.1]).collect();
        lent::book(self.lent(k), &flat, k, net)
    }

    /// Lifts a net.
    pub fn lift(&mut self, k: usize, net: u16) -> Result<(), Refusal> {
        lent::lift(self.lent(k), k, net)
    }

    /// Puts a leg as it was booked.
    pub fn put_leg(&mut self, k: usize, leg: Entry) -> Result<(), Refusal> {
        lent::put_leg(self.lent(k), k, leg)
    }

    /// Runs the record that begins at a place of a job file's bytes.
    pub fn run_record(&mut self, k: usize, job: &[u8], at: usize) -> Result<Record<Way>, Refusal> {
        let mut corners = corner_places();
        Ok(match lent::run_record(self.lent(k), &mut corners, job, k, at)? {
            Record::End => Record::End,
            Record::Ran(Steps { board, patch, track, lift, leg, next }) => {
                let track = track.map(|told| told.map(|bent| way(&corners, bent)));
                Record::Ran(Steps { board, patch, track, lift, leg, next })
            }
        })
    }

    /// The track that a lay between two points would lay.
    pub fn find(&self, k: usize, start: Point, end: Point) -> Result<Way, Refusal> {
        let mut corners = corner_places();
        lent::find(self.shown(k), &mut corners, k, start, end).map(|bent| way(&corners, bent))
    }

    /// The place of the strip that holds a point, among `strips`.
    pub fn look_up(&self, k: usize, point: Point) -> Result<usize, Refusal> {
        lent::look_up(self.shown(k), k, point)
    }

    /// The foil as a job file.
    pub fn save(&self, k: usize) -> Result<Vec<u8>, Refusal> {
        let mut bytes = vec![0; FILE_BYTES];
        let count = lent::save(self.shown(k), &mut bytes, k)?;
        bytes.truncate(count);
        Ok(bytes)
    }

    /// The packer's slip: a line of 33 bytes for each net.
    pub fn slip(&self, k: usize) -> Result<Vec<u8>, Refusal> {
        let mut bytes = vec![0; SLIP_BYTES];
        let count = lent::slip(self.shown(k), &mut bytes, k)?;
        bytes.truncate(count);
        Ok(bytes)
    }

    /// The ohms of a net, by three figures of the ink.
    pub fn ohms(&self, k: usize, net: u16, ink: Ink) -> Result<f64, Refusal> {
        lent::ohms(self.shown(k), k, net, ink)
    }
}
