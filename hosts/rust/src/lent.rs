//! The calls over lists that are lent, as foil.h has them. They take any lists of any lengths that hold anything, and
//! refuse what is no foil's state; Rust's borrows see to it that no two overlap. `Sheet` owns lists that are long
//! enough.
use crate::answers::{Bent, Pen, Point, Record, Refusal, Steps};
use crate::limits::FOILS;

/// A foil's record; all zero where the foil is not begun.
#[derive(Clone, Copy, Debug, Default, PartialEq, Eq)]
#[repr(C)]
pub struct Board {
    pub width: u16,
    pub height: u16,
    pub half: u16,
    pub gap: u16,
    pub entries: usize,
    pub strips: usize,
}

/// The records of the foils of a sheet.
#[derive(Clone, Copy, Debug, Default, PartialEq, Eq)]
#[repr(C)]
pub struct Records {
    pub boards: [Board; FOILS],
}

/// The record of a foil that was begun under document 01's rules.
#[derive(Clone, Copy, Debug, Default, PartialEq, Eq)]
#[repr(C)]
pub struct OldBoard {
    pub width: u16,
    pub height: u16,
    pub reach: u16,
    pub entries: usize,
    pub strips: usize,
}

/// An entry of the table: a patch (net 0) or a leg of a net, with x0 <= x < x1 and y0 <= y < y1.
#[derive(Clone, Copy, Debug, Default, PartialEq, Eq)]
#[repr(C)]
pub struct Entry {
    pub net: u16,
    pub x0: u16,
    pub y0: u16,
    pub x1: u16,
    pub y1: u16,
}

/// The ink: ohms a square, the width of a track in points, squares counted for a bend.
#[derive(Clone, Copy, Debug, PartialEq)]
#[repr(C)]
pub struct Ink {
    pub sheet: f64,
    pub width: f64,
    pub bend: f64,
}

/// What a call that may change a foil is lent: the records, the table, and the strips of the foil called.
pub struct Lent<'a> {
    pub records: &'a mut Records,
    pub table: &'a mut [Entry],
    pub strips: &'a mut [u16],
}

/// What a call that only reads a foil is lent.
#[derive(Clone, Copy)]
pub struct Shown<'a> {
    pub records: &'a Records,
    pub table: &'a [Entry],
    pub strips: &'a [u16],
}

/// What a carry is lent of the old foil, which is only read.
#[derive(Clone, Copy)]
pub struct Old<'a> {
    pub board: OldBoard,
    pub table: &'a [Entry],
    pub strips: &'a [u16],
}

/// What a carry writes.
pub struct Fresh<'a> {
    pub board: &'a mut Board,
    pub table: &'a mut [Entry],
    pub strips: &'a mut [u16],
    pub report: &'a mut [u16],
}

// The library's own structs and functions.
mod raw {
    use super::{Board, Entry, Ink, OldBoard, Records};

    #[derive(Clone, Copy)]
    #[repr(C)]
    pub struct Said {
        pub number: u8,
        pub corners: usize,
        pub bends: usize,
        pub place: usize,
        pub bytes: usize,
    }

    #[repr(C)]
    pub struct Resistance {
        pub number: u8,
        pub ohms: f64,
    }

    #[repr(C)]
    pub struct Step {
        pub ran: bool,
        pub said: Said,
    }

    #[repr(C)]
    pub struct Record {
        pub number: u8,
        pub end: bool,
        pub board: Step,
        pub patch: Step,
        pub track: Step,
        pub lift: Step,
        pub leg: Step,
        pub more: bool,
        pub next: usize,
    }

    // What every call but a carry is lent first, then the foil's number and what else it takes.
    macro_rules! calls {
        ($($sheet:ident $list:ident fn $name:ident($($more:ident: $kind:ty),*) -> $said:ty;)*) => {
            #[link(name = "foil", kind = "static")]
            extern "C" {
                $(pub fn $name(
                    sheet: calls!(@ $sheet Records), table: calls!(@ $list Entry), places: usize,
                    strips: calls!(@ $list u16), strip_numbers: usize, $($more: $kind),*
                ) -> $said;)*
                pub fn foil_carry(
                    board: *mut Board, table: *mut Entry, places: usize, old_table: *const Entry, old_places: usize,
                    strips: *mut u16, strip_numbers: usize, report: *mut u16, report_numbers: usize,
                    old_strips: *const u16, old_strip_numbers: usize, old: OldBoard,
                ) -> Said;
            }
        };
        (@ write $kind:ty) => { *mut $kind };
        (@ read $kind:ty) => { *const $kind };
    }

    calls! {
        write write fn foil_new_foil(k: usize, w: u16, h: u16, half: u16, gap: u16) -> Said;
        write write fn foil_draw(k: usize, x0: u16, y0: u16, x1: u16, y1: u16) -> Said;
        write write fn foil_lay(corners: *mut u16, numbers: usize, k: usize, net: u16, sx: u16, sy: u16, tx: u16,
            ty: u16) -> Said;
        write write fn foil_lay_list(corners: *mut u16, corner_numbers: usize, answers: *mut u16, answer_numbers: usize,
            wishes: *const u16, wish_numbers: usize, k: usize) -> Said;
        write write fn foil_join(corners: *mut u16, numbers: usize, k: usize, net: u16, sx: u16, sy: u16) -> Said;
        read read fn foil_find(corners: *mut u16, numbers: usize, k: usize, sx: u16, sy: u16, tx: u16, ty: u16) -> Said;
        write write fn foil_book(corners: *const u16, numbers: usize, k: usize, net: u16) -> Said;
        write write fn foil_lift(k: usize, net: u16) -> Said;
        write write fn foil_put_leg(k: usize, leg: Entry) -> Said;
        read read fn foil_look_up(k: usize, x: u16, y: u16) -> Said;
        read read fn foil_save(bytes: *mut u8, count: usize, k: usize) -> Said;
        read read fn foil_slip(bytes: *mut u8, count: usize, k: usize) -> Said;
        read read fn foil_ohms(k: usize, net: u16, ink: Ink) -> Resistance;
        write write fn foil_run_record(corners: *mut u16, corner_numbers: usize, bytes: *const u8, count: usize,
            k: usize, at: usize) -> Record;
    }
}

// Makes a call on lists that are lent to be written. It is sound for any lists: the library reads and writes inside the
// lengths that it is told, whatever they hold, and keeps no address.
macro_rules! called {
    ($name:ident, $lent:expr $(, $more:expr)*) => {{
        let lent = $lent;
        unsafe {
            raw::$name(
                lent.records, lent.table.as_mut_ptr(), lent.table.len(), lent.strips.as_mut_ptr(), lent.strips.len()
                $(, $more)*
            )
        }
    }};
}

// The same on lists that are lent to be read.
macro_rules! asked {
    ($name:ident, $shown:expr $(, $more:expr)*) => {{
        let shown = $shown;
        unsafe {
            raw::$name(
                shown.records, shown.table.as_ptr(), shown.table.len(), shown.strips.as_ptr(), shown.strips.len()
                $(, $more)*
            )
        }
    }};
}

/// The answer of a number: 0 is none of a refusal.
pub fn accepted(number: u8) -> Result<(), Refusal> {
    match number {
        0 => Ok(()),
        _ => Err(Refusal::of(number).expect("the library answers the numbers of refusals")),
    }
}

fn bent(said: raw::Said) -> Result<Bent, Refusal> {
    accepted(said.number).map(|()| Bent { corners: said.corners, bends: said.bends })
}

/// Begins foil k.
pub fn new_foil(lent: Lent<'_>, k: usize, w: u16, h: u16, pen: Pen) -> Result<(), Refusal> {
    accepted(called!(foil_new_foil, lent, k, w, h, pen.half, pen.gap).number)
}

/// Draws a patch.
pub fn draw(lent: Lent<'_>, k: usize, x0: u16, y0: u16, x1: u16, y1: u16) -> Result<(), Refusal> {
    accepted(called!(foil_draw, lent, k, x0, y0, x1, y1).number)
}

/// Lays a track, and writes its corners.
pub fn lay(lent: Lent<'_>, corners: &mut [u16], k: usize, net: u16, s: Point, t: Point) -> Result<Bent, Refusal> {
    let (to, numbers) = (corners.as_mut_ptr(), corners.len());
    bent(called!(foil_lay, lent, to, numbers, k, net, s.0, s.1, t.0, t.1))
}

/// Lays the nets of a list, five numbers each; writes their corners one after the other, and three numbers for each
/// answer.
pub fn lay_list(
    lent: Lent<'_>,
    corners: &mut [u16],
    answers: &mut [u16],
    wishes: &[u16],
    k: usize,
) -> Result<(), Refusal> {
    let (to, numbers) = (corners.as_mut_ptr(), corners.len());
    let (told, places) = (answers.as_mut_ptr(), answers.len());
    accepted(called!(foil_lay_list, lent, to, numbers, told, places, wishes.as_ptr(), wishes.len(), k).number)
}

/// Joins a point to a net, and writes the corners of the way.
pub fn join(lent: Lent<'_>, corners: &mut [u16], k: usize, net: u16, s: Point) -> Result<Bent, Refusal> {
    let (to, numbers) = (corners.as_mut_ptr(), corners.len());
    bent(called!(foil_join, lent, to, numbers, k, net, s.0, s.1))
}

/// Finds the track between two points, and writes its corners.
pub fn find(shown: Shown<'_>, corners: &mut [u16], k: usize, s: Point, t: Point) -> Result<Bent, Refusal> {
    let (to, numbers) = (corners.as_mut_ptr(), corners.len());
    bent(asked!(foil_find, shown, to, numbers, k, s.0, s.1, t.0, t.1))
}

/// Books the way that the whole corner list draws.
pub fn book(lent: Lent<'_>, corners: &[u16], k: usize, net: u16) -> Result<Bent, Refusal> {
    bent(called!(foil_book, lent, corners.as_ptr(), corners.len(), k, net))
}

/// Lifts a net.
pub fn lift(lent: Lent<'_>, k: usize, net: u16) -> Result<(), Refusal> {
    accepted(called!(foil_lift, lent, k, net).number)
}

/// Puts a leg as it was booked.
pub fn put_leg(lent: Lent<'_>, k: usize, leg: Entry) -> Result<(), Refusal> {
    accepted(called!(foil_put_leg, lent, k, leg).number)
}

/// The place of the strip that holds a point.
pub fn look_up(shown: Shown<'_>, k: usize, point: Point) -> Result<usize, Refusal> {
    let said = asked!(foil_look_up, shown, k, point.0, point.1);
    accepted(said.number).map(|()| said.place)
}

/// Writes the foil as a job file: how many bytes this has.
pub fn save(shown: Shown<'_>, bytes: &mut [u8], k: usize) -> Result<usize, Refusal> {
    let said = asked!(foil_save, shown, bytes.as_mut_ptr(), bytes.len(), k);
    accepted(said.number).map(|()| said.bytes)
}

/// Writes the packer's slip: how many bytes this has.
pub fn slip(shown: Shown<'_>, bytes: &mut [u8], k: usize) -> Result<usize, Refusal> {
    let said = asked!(foil_slip, shown, bytes.as_mut_ptr(), bytes.len(), k);
    accepted(said.number).map(|()| said.bytes)
}

/// The ohms of a net.
pub fn ohms(shown: Shown<'_>, k: usize, net: u16, ink: Ink) -> Result<f64, Refusal> {
    let said = asked!(foil_ohms, shown, k, net, ink);
    accepted(said.number).map(|()| said.ohms)
}

/// Runs the record that begins at a place of a job file's bytes; a lay's corners are written.
pub fn run_record(
    lent: Lent<'_>,
    corners: &mut [u16],
    bytes: &[u8],
    k: usize,
    at: usize,
) -> Result<Record<Bent>, Refusal> {
    let (to, numbers) = (corners.as_mut_ptr(), corners.len());
    let said = called!(foil_run_record, lent, to, numbers, bytes.as_ptr(), bytes.len(), k, at);
    accepted(said.number)?;
    if said.end {
        return Ok(Record::End);
    }
    let done = |step: &raw::Step| step.ran.then(|| accepted(step.said.number));
    Ok(Record::Ran(Steps {
        board: done(&said.board),
        patch: done(&said.patch),
        track: said.track.ran.then(|| bent(said.track.said)),
        lift: done(&said.lift),
        leg: done(&said.leg),
        next: said.more.then_some(said.next),
    }))
}

/// Carries a foil over that was begun under document 01's rules: how many nets were lifted, which are reported.
pub fn carry(fresh: Fresh<'_>, old: Old<'_>) -> Result<usize, Refusal> {
    let said = unsafe {
        raw::foil_carry(
            fresh.board,
            fresh.table.as_mut_ptr(),
            fresh.table.len(),
            old.table.as_ptr(),
            old.table.len(),
            fresh.strips.as_mut_ptr(),
            fresh.strips.len(),
            fresh.report.as_mut_ptr(),
            fresh.report.len(),
            old.strips.as_ptr(),
            old.strips.len(),
            old.board,
        )
    };
    accepted(said.number).map(|()| said.bytes)
}
