//! Every call on a sheet that owns its lists.
use keyfoil::limits::{ENTRIES, FOILS, STRIPS};
use keyfoil::{with_stack, Bent, Entry, Ink, Pen, Record, Refusal, Sheet, Strip, Way, Wish};

const JOB: [u8; 27] = [0x03, 6, 0, 4, 0, 0, 0, 2, 0, 0, 0, 3, 0, 3, 0, 0x04, 5, 0, 0, 0, 0, 0, 4, 0, 0, 0, 0x00];

fn entry(net: u16, x0: u16, y0: u16, x1: u16, y1: u16) -> Entry {
    Entry { net, x0, y0, x1, y1 }
}

fn strip(x0: u16, y0: u16, x1: u16, y1: u16) -> Strip {
    Strip { x0, y0, x1, y1 }
}

fn way(corners: &[(u16, u16)]) -> Way {
    Way { corners: corners.to_vec(), bends: corners.len().saturating_sub(2) }
}

// Document 01's foil as foil 0.
fn begun() -> Sheet {
    let mut sheet = Sheet::new();
    sheet.new_foil(0, 6, 4, Pen::default()).unwrap();
    sheet.draw(0, 2, 0, 3, 3).unwrap();
    sheet.lay(0, 5, (0, 0), (4, 0)).unwrap();
    sheet
}

fn is_document_01(sheet: &Sheet, k: usize) {
    let entries = [entry(0, 2, 0, 3, 3), entry(5, 0, 0, 1, 4), entry(5, 0, 3, 5, 4), entry(5, 4, 0, 5, 4)];
    assert_eq!(entries, sheet.entries(k));
    assert_eq!(vec![strip(1, 0, 2, 3), strip(3, 0, 4, 3), strip(5, 0, 6, 4)], sheet.strips(k));
}

#[test]
fn a_foil_by_calls() {
    with_stack(|| {
        let mut sheet = Sheet::new();
        assert_eq!(Err(Refusal::BrokenState), sheet.draw(0, 2, 0, 3, 3));
        assert_eq!(Err(Refusal::BadSize), sheet.new_foil(0, 0, 4, Pen::default()));
        assert_eq!(Err(Refusal::BadPen), sheet.new_foil(0, 6, 4, Pen { half: 8, gap: 0 }));
        sheet = begun();
        is_document_01(&sheet, 0);
        let before = sheet.clone();
        assert_eq!(Err(Refusal::BadShape), sheet.draw(0, 3, 0, 2, 3));
        assert_eq!(Err(Refusal::Crossed), sheet.draw(0, 0, 3, 6, 4));
        assert_eq!(Err(Refusal::NetOnFoil), sheet.lay(0, 5, (0, 0), (4, 0)));
        assert_eq!(Err(Refusal::NoPath), sheet.lay(0, 6, (1, 0), (5, 0)));
        assert_eq!(Err(Refusal::NetNotOnFoil), sheet.lift(0, 6));
        assert_eq!(Err(Refusal::BadNet), sheet.put_leg(0, entry(0, 0, 0, 1, 1)));
        assert_eq!(Err(Refusal::NotFree), sheet.find(0, (1, 0), (2, 0)));
        assert_eq!((Ok(2), Err(Refusal::NotFree)), (sheet.look_up(0, (5, 3)), sheet.look_up(0, (2, 2))));
        assert_eq!(before, sheet);
        sheet.lift(0, 5).unwrap();
        assert_eq!(Ok(way(&[(0, 0), (0, 3), (4, 3), (4, 0)])), sheet.find(0, (0, 0), (4, 0)));
        assert_eq!(Err(Refusal::NotAWay), sheet.book(0, 5, &[(0, 0), (1, 1)]));
        assert_eq!(Ok(Bent { corners: 4, bends: 2 }), sheet.book(0, 5, &[(0, 0), (0, 3), (4, 3), (4, 0)]));
        assert_eq!(before, sheet);
    });
}

#[test]
fn a_foil_by_records() {
    with_stack(|| {
        let mut sheet = Sheet::new();
        let Ok(Record::Ran(first)) = sheet.run_record(3, &JOB, 0) else { panic!("the first record is run") };
        assert_eq!((Some(Ok(())), Some(Ok(())), None, Some(15)), (first.board, first.patch, first.track, first.next));
        let Ok(Record::Ran(second)) = sheet.run_record(3, &JOB, 15) else { panic!("the second record is run") };
        assert_eq!(Some(Ok(way(&[(0, 0), (0, 3), (4, 3), (4, 0)]))), second.track);
        assert_eq!(Ok(Record::End), sheet.run_record(3, &JOB, 26));
        is_document_01(&sheet, 3);
        assert_eq!(Err(Refusal::FileCutShort), sheet.run_record(3, &JOB, 27));
        assert_eq!(Err(Refusal::BytesAfterEnd), sheet.run_record(3, &[9, 0, 9], 1));
        assert_eq!(Err(Refusal::UnknownBit), sheet.run_record(3, &[64], 0));
        assert_eq!(Err(Refusal::BoardMisplaced), sheet.run_record(3, &[0], 0));
        assert_eq!(Err(Refusal::FileTooLong), sheet.run_record(3, &[0; 60_001], 0));
        let Ok(Record::Ran(ended)) = sheet.run_record(3, &[1, 0, 0, 4, 0, 0, 0, 0], 0) else { panic!("it is run") };
        assert_eq!((Some(Err(Refusal::BadSize)), None), (ended.board, ended.next));
        is_document_01(&sheet, 3);
    });
}

#[test]
fn saved_and_read_again() {
    with_stack(|| {
        let mut sheet = begun();
        let saved = sheet.save(0).unwrap();
        let mut at = 0;
        while let Record::Ran(steps) = sheet.run_record(7, &saved, at).unwrap() {
            at = steps.next.unwrap();
        }
        assert_eq!(saved.len(), at + 1);
        is_document_01(&sheet, 7);
        assert_eq!(b"  5    3      10     0     0    \n".to_vec(), sheet.slip(7).unwrap());
        assert_eq!(Ok(3.0), sheet.ohms(7, 5, Ink { sheet: 0.5, width: 2.0, bend: 0.5 }));
        assert_eq!(Err(Refusal::BadInk), sheet.ohms(7, 5, Ink { sheet: 1000.0, width: 65.0, bend: 4.0 }));
    });
}

#[test]
fn a_list_and_a_join() {
    with_stack(|| {
        let mut sheet = begun();
        sheet.lift(0, 5).unwrap();
        let wish = |net, start, end| Wish { net, start, end };
        let list = [wish(5, (0, 0), (4, 0)), wish(5, (1, 0), (1, 2)), wish(6, (1, 0), (1, 2)), wish(7, (5, 0), (5, 3))];
        let told = sheet.lay_list(0, &list).unwrap();
        assert_eq!(Ok(way(&[(0, 0), (0, 3), (4, 3), (4, 0)])), told[0]);
        assert_eq!(Err(Refusal::NetOnFoil), told[1]);
        assert_eq!((Ok(way(&[(1, 0), (1, 2)])), Ok(way(&[(5, 0), (5, 3)]))), (told[2].clone(), told[3].clone()));
        assert_eq!(Ok(vec![]), sheet.lay_list(0, &[]));
        assert_eq!(Err(Refusal::LentTooLittle), sheet.lay_list(0, &[list[0]; 41]));
        assert_eq!(Ok(way(&[(3, 1), (4, 1)])), sheet.join(0, 5, (3, 1)));
        assert_eq!(Err(Refusal::NotFree), sheet.join(0, 5, (5, 1)));
    });
}

#[test]
fn eight_foils() {
    with_stack(|| {
        let mut sheet = Sheet::new();
        assert_eq!(Err(Refusal::NoSuchFoil), sheet.new_foil(8, 6, 4, Pen::default()));
        assert_eq!((0, 0), (sheet.entries(8).len(), sheet.strips(usize::MAX).len()));
        for k in 0..FOILS {
            sheet.new_foil(k, 64, 64, Pen::default()).unwrap();
        }
        let mut drawn = [0; FOILS];
        for (k, count) in drawn.iter_mut().enumerate() {
            for n in 0..ENTRIES as u16 {
                match sheet.draw(k, n % 64, n / 64, n % 64 + 1, n / 64 + 1) {
                    Ok(()) => *count += 1,
                    Err(refusal) => assert_eq!(Refusal::TableFull, refusal),
                }
            }
        }
        assert_eq!([128, 128, 96, 32, 32, 32, 32, 32], drawn);
        assert_eq!(drawn, [0, 1, 2, 3, 4, 5, 6, 7].map(|k| sheet.entries(k).len()));
    });
}

#[test]
fn too_many_strips() {
    with_stack(|| {
        let mut sheet = Sheet::new();
        sheet.new_foil(0, 129, 127, Pen::default()).unwrap();
        for x in (1..128).step_by(2) {
            sheet.draw(0, x, 0, x + 1, 127).unwrap();
        }
        for y in (1..124).step_by(2) {
            sheet.draw(0, 0, y, 129, y + 1).unwrap();
        }
        assert_eq!(STRIPS - 1, sheet.strips(0).len());
        assert_eq!(Err(Refusal::TooManyStrips), sheet.draw(0, 0, 125, 129, 126));
    });
}

#[test]
fn carried_over() {
    with_stack(|| {
        let sheet = begun();
        let (mut other, lifted) = Sheet::carried(6, 4, 0, sheet.entries(0), &sheet.strips(0)).unwrap();
        assert_eq!(Vec::<u16>::new(), lifted);
        is_document_01(&other, 0);
        other.lift(0, 5).unwrap();
        assert_eq!(Err(Refusal::BrokenState), Sheet::carried(6, 4, 0, sheet.entries(0), &[]));
        // a patch over a track of document 01: the net is lifted whole
        let row = [entry(5, 0, 0, 1, 4), entry(5, 0, 3, 6, 4), entry(0, 3, 2, 4, 4)];
        let strips = [strip(1, 0, 6, 2), strip(1, 2, 3, 3), strip(4, 2, 6, 3)];
        let (last, lifted) = Sheet::carried(6, 4, 0, &row, &strips).unwrap();
        assert_eq!((vec![5], &row[2..]), (lifted, last.entries(0)));
    });
}

#[test]
fn foils_in_threads() {
    let filled = |k: u16| {
        let mut sheet = Sheet::new();
        sheet.new_foil(0, 300, 300, Pen { half: k % 3, gap: 1 }).unwrap();
        let ends = |n: u16| (4 + 37 * n % 290, 4 + 53 * n % 290);
        let ways: Vec<_> = (1..30).map(|net| sheet.lay(0, net, ends(2 * net), ends(2 * net + 1))).collect();
        (sheet, ways)
    };
    let alone: Vec<_> = (0..8).map(|k| with_stack(|| filled(k))).collect();
    assert!(alone[0].1.iter().flatten().any(|way| way.bends > 1));
    std::thread::scope(|scope| {
        let start = |k| std::thread::Builder::new().stack_size(keyfoil::STACK).spawn_scoped(scope, move || filled(k));
        let threads: Vec<_> = (0..8).map(|k| start(k).unwrap()).collect();
        for (thread, alone) in threads.into_iter().zip(&alone) {
            assert_eq!(*alone, thread.join().unwrap());
        }
    });
}

// The header's names and numbers.
#[test]
fn as_in_the_header() {
    let header = include_str!("../../c/foil.h");
    for number in 1..=23 {
        let name: String = format!("{:?}", Refusal::of(number).unwrap())
            .chars()
            .enumerate()
            .flat_map(|(k, c)| (k > 0 && c.is_uppercase()).then_some('_').into_iter().chain([c.to_ascii_uppercase()]))
            .collect();
        assert!(header.contains(&format!("FOIL_{name} = {number}")), "{name}");
    }
    assert_eq!((None, None), (Refusal::of(0), Refusal::of(24)));
    use keyfoil::limits::{CORNERS, PLACES, REPORT, STACK, SURE, WISHES};
    let sizes = [
        ("FOILS", FOILS),
        ("PLACES", PLACES),
        ("ENTRIES", ENTRIES),
        ("SURE", SURE),
        ("STRIPS", STRIPS),
        ("CORNERS", CORNERS),
        ("WISHES", WISHES),
        ("REPORT", REPORT),
    ];
    for (name, size) in sizes {
        assert!(header.contains(&format!("FOIL_{name} = {size}")), "{name}");
    }
    assert!(header.contains(&format!("FOIL_STACK = {} * 1024 * 1024", STACK >> 20)));
}
