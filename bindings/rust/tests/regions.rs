//! Several regions in one call: each has what the list call gives for it alone.

use hornherder::{raw, Listing, Region, Shelf, MAX_REGIONS};

/// The region from one whole number to another, of points of one coordinate, the upper end open.
fn from_to(least: i64, end: i64) -> Region {
    Region::with_marks(1, vec![1, -1], vec![least, -end], vec![0, 1]).unwrap()
}

/// Regions of no faces up to 32 on points of three coordinates, with either mark.
fn regions(count: usize) -> Vec<Region> {
    let region = |r: usize| {
        let h = r * 5 % 33;
        let normals = (0..3 * h).map(|i| ((i + r) * 7 % 11) as i32 - 5).collect();
        let offsets = (0..h).map(|i| ((i * r) % 90) as i64 - 300).collect();
        let marks = (0..h).map(|i| (i % 2) as u8).collect();
        Region::with_marks(3, normals, offsets, marks).unwrap()
    };
    (0..count).map(region).collect()
}

/// Asks that each listing is the one that the list call gives for its region alone.
fn as_alone(shelf: &Shelf, regions: &[Region], listings: &[Listing]) {
    assert_eq!(listings.len(), regions.len());
    let mut alone = vec![0; shelf.len()];
    for (region, listing) in regions.iter().zip(listings) {
        assert_eq!(shelf.list(region, &mut alone), Ok(*listing));
    }
}

/// Each number of regions, on a shelf of some points.
#[test]
fn any_number() {
    let points: Vec<i32> = (0..600).map(|i| i * 7919 % 101).collect();
    let shelf = Shelf::new(3, &points[..]).unwrap();
    let all = regions(MAX_REGIONS);
    for count in 1..=MAX_REGIONS {
        let mut buffer = vec![77; count * shelf.len() + 3];
        let listings = shelf.list_all(&all[..count], &mut buffer).unwrap();
        as_alone(&shelf, &all[..count], &listings);
        drop(listings);
        assert_eq!(buffer[count * shelf.len()..], [77; 3]);
    }
}

/// Bins beside each other have every number once.
#[test]
fn bins() {
    let shelf = Shelf::new(1, (0..100).collect::<Vec<i32>>()).unwrap();
    let bins: Vec<Region> = (0..10).map(|i| from_to(10 * i, 10 * i + 10)).collect();
    let mut buffer = vec![0; bins.len() * shelf.len()];
    let listings = shelf.list_all(&bins, &mut buffer).unwrap();
    let inside = listings.iter().flat_map(|listing| listing.inside());
    assert!(inside.copied().eq(0..100));
    as_alone(&shelf, &bins, &listings);
}

/// No points: a listing for each region, with nothing in it.
#[test]
fn no_points() {
    let shelf = Shelf::new(3, vec![]).unwrap();
    let listings = shelf.list_all(&regions(5), &mut []).unwrap();
    let empty = |listing: &Listing| listing.inside().is_empty() && listing.outside().len() == 0;
    assert!(listings.len() == 5 && listings.iter().all(empty));
    assert!(listings.iter().all(|listing| listing.visits() == 0));
}

/// 14 is tested before 4, 6 of each region before the counts are added up, 11 before 9; and a refused call writes nothing.
#[test]
fn in_order() {
    let (points, live, wrong, right) = ([0, 10], [1, 1], [1, 0], [0, 1]);
    let most = u32::MAX;
    for (regions, face_counts, places, mark, order, code) in [
        (0, &[][..], 0, 2, wrong, 14),
        (65, &[0; 65], 0, 2, wrong, 14),
        (2, &[1], 0, 2, wrong, 14),
        (2, &[1, 33], 3, 2, wrong, 4),
        (2, &[1, 33], 4, 2, wrong, 6),
        (2, &[most, 2], 4, 2, wrong, 6),
        (2, &[1, 1], 4, 2, wrong, 7),
        (2, &[1, 0], 4, 2, wrong, 11),
        (2, &[1, 0], 4, 1, wrong, 9),
        (2, &[0, 1], 4, 1, right, 0),
    ] {
        let (mut lists, mut counts) = (vec![70; places], [71; 6]);
        let marks = [mark];
        let answer = raw::list_regions(
            1,
            2,
            regions,
            &points,
            &live,
            &order,
            face_counts,
            &[1],
            &[5],
            &marks,
            &mut lists,
            &mut counts,
        );
        assert_eq!(answer, code);
        let expected = match code {
            0 => (vec![0, 1, 1, 0], [2, 0, 0, 1, 1, 2]),
            _ => (vec![70; places], [71; 6]),
        };
        assert_eq!((lists, counts), expected);
    }
}
