//! Every refusal, met through the types that people use.

use hornherder::{raw, Refusal, Region, Shelf, MAX_OFFSET, MAX_POINTS, MAX_REGIONS};
use std::error::Error;

/// A region of so many faces, all of which hold every point of one coordinate.
fn faces(h: usize) -> Result<Region, Refusal> {
    Region::new(1, vec![0; h], vec![0; h])
}

/// Making a shelf meets 1, 2, 3 and 5.
#[test]
fn of_new() {
    let refused = |k, points: &[i32]| Shelf::new(k, points).map(|_| ()).unwrap_err();
    assert_eq!(refused(0, &[]), Refusal::Dimension);
    assert_eq!(refused(5, &[0; 5]), Refusal::Dimension);
    assert_eq!(refused(1, &vec![0; MAX_POINTS + 1]), Refusal::TooManyPoints);
    assert_eq!(refused(4, &[0; 7]), Refusal::PointsLength);
    assert_eq!(refused(1, &[32_768]), Refusal::CoordinateRange);
    assert!(Shelf::new(1, vec![0; MAX_POINTS]).is_ok());
}

/// Taking an order meets 4 as well, and never 9.
#[test]
fn of_order() {
    let taken = |points: &[i32], order: &[u32]| {
        let shelf = Shelf::with_order(1, points, vec![1; 2], order.to_vec());
        shelf.map(|(shelf, already)| (shelf.order().to_vec(), already))
    };
    assert_eq!(taken(&[3, 3], &[0]), Err(Refusal::ShortBuffer));
    let range = taken(&[3, -32_769], &[0, 1]);
    assert_eq!(range, Err(Refusal::CoordinateRange));
    for order in [[1, 0], [0, 0], [0, 2], [0, 1]] {
        let already = order == [0, 1];
        assert_eq!(taken(&[3, 3], &order), Ok((vec![0, 1], already)));
    }
}

/// Making a region meets 1, 6, 7 and 8 ...
#[test]
fn of_region() {
    assert_eq!(Region::everywhere(0), Err(Refusal::Dimension));
    assert_eq!(Region::everywhere(5), Err(Refusal::Dimension));
    assert_eq!(Region::everywhere(usize::MAX), Err(Refusal::Dimension));
    assert_eq!(faces(33), Err(Refusal::TooManyFaces));
    let full = faces(32).unwrap();
    assert_eq!(full.with_face(&[0], 0), Err(Refusal::TooManyFaces));
    let flat = Region::everywhere(2).unwrap();
    assert_eq!(flat.clone().with_face(&[1], 0), Err(Refusal::FacesLength));
    let component = flat.clone().with_face(&[0, -32_768], 0);
    assert_eq!(component, Err(Refusal::FaceRange));
    let offset = flat.clone().with_face(&[0, -32_767], -MAX_OFFSET - 1);
    assert_eq!(offset, Err(Refusal::FaceRange));
    assert!(flat.with_face(&[0, -32_767], -MAX_OFFSET).is_ok());
}

/// ... and 11: for a mark too few or too many, and for one that is not 0 or 1.
#[test]
fn of_marks() {
    let marked = |marks: &[u8]| Region::with_marks(1, vec![1, -1], vec![3, -5], marks.to_vec());
    for marks in [&[][..], &[0], &[0, 1, 0], &[2, 0], &[0, 2], &[1, 255]] {
        assert_eq!(marked(marks), Err(Refusal::Marks), "{marks:?}");
    }
    for marks in [[0, 0], [0, 1], [1, 0], [1, 1]] {
        assert_eq!(marked(&marks).unwrap().marks(), marks);
    }
    let unmarked = Region::with_marks(1, vec![], vec![], vec![0]);
    assert_eq!(unmarked, Err(Refusal::Marks));
    let full = Region::with_marks(1, vec![0; 32], vec![0; 32], vec![1; 32]).unwrap();
    assert_eq!(full.with_open_face(&[0], 0), Err(Refusal::TooManyFaces));
}

/// 8 is tested before 11, and 11 before 9, in each call that has them.
#[test]
fn marks_in_order() {
    let (points, live, wrong_order, right_order) = ([0, 10], [1, 1], [1, 0], [0, 1]);
    for (component, mark, order, code) in [
        (-32_768, 2, wrong_order, 8),
        (1, 2, wrong_order, 11),
        (1, 1, wrong_order, 9),
        (1, 1, right_order, 0),
    ] {
        let (normals, marks) = ([component], [mark]);
        let mut list = [70, 71];
        #[rustfmt::skip]
        let listing = raw::list(1, 2, 1, &points, &live, &order, &normals, &[0], &marks, &mut list);
        let screening = raw::screen(1, 2, 1, &points, &live, &order, &normals, &[0], &marks);
        assert_eq!((listing.code, screening.code), (code, code));
        let placing = raw::place(1, 1, &[5], &normals, &[0], &marks);
        if code == 8 || code == 11 {
            let refused = raw::Placing {
                code,
                ..raw::Placing::default()
            };
            assert_eq!(placing, refused);
        } else {
            assert_eq!((placing.code, placing.inside, placing.margin), (0, 1, 5));
        }
        if code != 0 {
            assert_eq!(list, [70, 71]);
            assert_eq!((listing.inside, listing.outside, listing.visits), (0, 0, 0));
            let told = (screening.found, screening.number, screening.visits);
            assert_eq!(told, (0, 0, 0));
        }
    }
}

/// Testing a point meets 3 and 5.
#[test]
fn of_one_point() {
    let region = faces(1).unwrap();
    assert_eq!(region.contains(&[]), Err(Refusal::PointsLength));
    assert_eq!(region.contains(&[1, 2]), Err(Refusal::PointsLength));
    assert_eq!(region.contains(&[32_768]), Err(Refusal::CoordinateRange));
    assert_eq!(region.contains(&[32_767]), Ok(true));
    assert_eq!(region.place(&[]), Err(Refusal::PointsLength));
    assert_eq!(region.place(&[-32_769]), Err(Refusal::CoordinateRange));
    assert!(region.place(&[-32_768]).is_ok());
}

/// Listing meets 4 and 7, and leaves the buffer alone.
#[test]
fn of_list() {
    let shelf = Shelf::new(2, vec![1, 2, 3, 4]).unwrap();
    let mut buffer = [70, 71, 72];
    let everywhere = Region::everywhere(2).unwrap();
    let short = shelf.list(&everywhere, &mut buffer[..1]);
    assert_eq!(short, Err(Refusal::ShortBuffer));
    let other = shelf.list(&faces(1).unwrap(), &mut buffer);
    assert_eq!(other, Err(Refusal::FacesLength));
    assert_eq!(buffer, [70, 71, 72]);
}

/// Listing several regions meets 14, 4 and 7, in this order, and leaves the buffer alone.
#[test]
fn of_list_all() {
    let shelf = Shelf::new(2, vec![1, 2, 3, 4]).unwrap();
    let (everywhere, other) = (Region::everywhere(2).unwrap(), faces(1).unwrap());
    let mut buffer = [70; 2 * MAX_REGIONS];
    let too_many = vec![other.clone(); MAX_REGIONS + 1];
    let over = shelf.list_all(&too_many, &mut []);
    assert_eq!(over, Err(Refusal::RegionCount));
    assert_eq!(shelf.list_all([], &mut buffer), Err(Refusal::RegionCount));
    let short = shelf.list_all([&everywhere, &other], &mut buffer[..3]);
    assert_eq!(short, Err(Refusal::ShortBuffer));
    let faulty = shelf.list_all([&everywhere, &other], &mut buffer);
    assert_eq!(faulty, Err(Refusal::FacesLength));
    assert_eq!(buffer, [70; 2 * MAX_REGIONS]);
    let most = vec![everywhere; MAX_REGIONS];
    assert_eq!(shelf.list_all(&most, &mut buffer).unwrap().len(), 64);
}

/// Faces of one dimension too few and one too many, whose normals joined are as long as they should be, are refused all the same.
#[test]
fn even_when_joined() {
    let shelf = Shelf::new(2, vec![1, 2, 3, 4]).unwrap();
    let less = faces(1).unwrap();
    let more = Region::new(3, vec![0; 3], vec![0]).unwrap();
    let mut buffer = [70; 4];
    let refused = shelf.list_all([&less, &more], &mut buffer);
    assert_eq!(refused, Err(Refusal::FacesLength));
    assert_eq!(buffer, [70; 4]);
    let no_faces = Region::everywhere(3).unwrap();
    assert!(shelf.list_all([&no_faces], &mut buffer).is_ok());
}

/// Screening meets 7.
#[test]
fn of_screen() {
    let shelf = Shelf::new(2, vec![1, 2, 3, 4]).unwrap();
    let other = shelf.screen(&faces(1).unwrap());
    assert_eq!(other, Err(Refusal::FacesLength));
}

/// Explaining meets 7, and 17 for a number that no point has.
#[test]
fn of_explain() {
    let shelf = Shelf::new(2, vec![1, 2, 3, 4]).unwrap();
    let everywhere = Region::everywhere(2).unwrap();
    for number in [2, 3, 65_536, u32::MAX] {
        let refused = shelf.explain(&everywhere, number);
        assert_eq!(refused, Err(Refusal::NotLive));
        let other = shelf.explain(&faces(1).unwrap(), number);
        assert_eq!(other, Err(Refusal::FacesLength));
    }
    assert!(shelf.explain(&everywhere, 1).is_ok());
    let empty = Shelf::new(2, vec![]).unwrap();
    assert_eq!(empty.explain(&everywhere, 0), Err(Refusal::NotLive));
}

/// A row of the README's table: its number, when it is given, and the likely cause.
fn row(line: &str) -> Option<(u32, &str, &str)> {
    let cells: Vec<_> = line.split('|').map(str::trim).collect();
    match cells[..] {
        ["", number, _, given, likely, ""] => Some((number.parse().ok()?, given, likely)),
        _ => None,
    }
}

/// Each refusal has a number of its own, and says what the README's table says.
#[test]
fn numbers_and_sentences() {
    let readme = include_str!("../../../README.md");
    let mut rows: Vec<_> = readme.lines().filter_map(row).collect();
    rows.retain(|&(number, _, _)| number != 10); // the program's
    assert_eq!(rows.len(), Refusal::ALL.len());
    for (&(number, given, likely), &refusal) in rows.iter().zip(Refusal::ALL) {
        assert_eq!(refusal.number(), number);
        assert_eq!(Refusal::from_number(number), Some(refusal));
        let sentence = (&refusal as &dyn Error).to_string();
        assert_eq!(
            sentence,
            format!("refused ({number}): {given}; likely: {likely}")
        );
    }
    assert_eq!(Refusal::from_number(0), None);
    assert_eq!(Refusal::from_number(10), None);
    assert_eq!(Refusal::from_number(13), None); // an earlier version's, not given out again
}

/// What is no refusal of the library's has a sentence too.
#[test]
fn other_sentences() {
    let other = Refusal::OtherVersion(700);
    let own = format!("for version {};", raw::VERSION);
    assert!(other.to_string().contains("has version 700"));
    assert!(other.to_string().contains(&own));
    assert_eq!(other.number(), 0);
    let unknown = Refusal::Unknown(77);
    assert!(unknown.to_string().contains("77"));
    assert_eq!(unknown.number(), 77);
}
