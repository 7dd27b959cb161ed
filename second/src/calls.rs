//! The fourteen calls, and functions that look at the visits behind a list.

use crate::found::{found_number, visits_of_screen};
use crate::joined::{counts_of_regions, faces_of_regions, places_of_regions};
use crate::lists::{inside_and_outside, places};
use crate::live::{lowest_dead, total_live, DEAD, LIVE};
use crate::margin::{face_of_margin, margin};
use crate::order::{built_order, is_tree};
use crate::reading::{point_of_reading, Colour, Reading};
use crate::reason::{margin_to_face, why};
use crate::refusals;
use crate::region::{faces, inside, Face};
use crate::scan::tests;
use crate::shelf::{coordinates_of, live_shelf, Shelf};
use crate::tight;
use crate::visits;

/// The answer of arrange: already is 1 where the order was the tree before, else
/// 0; on a refusal it is 0.
#[derive(Clone, Copy, Debug, Default, PartialEq, Eq)]
pub struct Arranging {
    pub code: u32,
    pub already: u32,
}

/// The answer of list and of list by tight boxes; on a refusal all but the code is 0.
#[derive(Clone, Copy, Debug, Default, PartialEq, Eq)]
pub struct Listing {
    pub code: u32,
    pub inside: u32,
    pub outside: u32,
    pub visits: u32,
}

/// The answer of scan: tests are the face tests made; on a refusal all but the
/// code is 0.
#[derive(Clone, Copy, Debug, Default, PartialEq, Eq)]
pub struct Scanning {
    pub code: u32,
    pub inside: u32,
    pub outside: u32,
    pub tests: u32,
}

/// The answer of screen: found is 1 or 0, and number is 0 where none is found; on
/// a refusal all but the code is 0.
#[derive(Clone, Copy, Debug, Default, PartialEq, Eq)]
pub struct Screening {
    pub code: u32,
    pub found: u32,
    pub number: u32,
    pub visits: u32,
}

/// The answer of the one-point test: inside is 1 or 0, and measured is 0 where
/// there are no faces, with face and margin 0; on a refusal all but the code is 0.
#[derive(Clone, Copy, Debug, Default, PartialEq, Eq)]
pub struct Placing {
    pub code: u32,
    pub inside: u32,
    pub measured: u32,
    pub face: u16,
    pub margin: i64,
}

/// The answer of the calls that make a point from a reading: made is 1, or 0
/// where nothing was measured; on a refusal all but the code is 0.
#[derive(Clone, Copy, Debug, Default, PartialEq, Eq)]
pub struct Making {
    pub code: u32,
    pub made: u32,
}

/// The answer of explain: reason 1 inside with a whole branch, 2 inside by its own
/// test, 3 outside with a whole branch, 4 outside by its own test. Face and margin
/// are 0 for inside; on a refusal all but the code is 0.
#[derive(Clone, Copy, Debug, Default, PartialEq, Eq)]
pub struct Explaining {
    pub code: u32,
    pub reason: u8,
    pub face: u8,
    pub slot: u16,
    pub margin: i64,
}

/// The answer of take: the number taken; on a refusal it is 0.
#[derive(Clone, Copy, Debug, Default, PartialEq, Eq)]
pub struct Taking {
    pub code: u32,
    pub number: u32,
}

/// Makes the first v places of `order` the tree of the live points, and says
/// whether they already were it. Where they were, nothing is written.
pub fn arrange(k: usize, n: usize, points: &[i32], live: &[u8], order: &mut [u32]) -> Arranging {
    let code = refusals::of_arrange(k, n, points, live, order);
    if code != 0 {
        return Arranging { code, already: 0 };
    }
    let already = is_tree(k, points, live, order);
    if !already {
        order[..total_live(live)].copy_from_slice(&built_order(k, points, live));
    }
    Arranging {
        code: 0,
        already: u32::from(already),
    }
}

/// Writes the inside and outside numbers into the first v places of `list`.
#[allow(clippy::too_many_arguments)]
pub fn list(
    k: usize,
    n: usize,
    h: usize,
    points: &[i32],
    live: &[u8],
    order: &[u32],
    normals: &[i32],
    offsets: &[i64],
    marks: &[u8],
    list: &mut [u32],
) -> Listing {
    let length = list.len();
    let code = refusals::of_list(
        k, n, h, points, live, order, normals, offsets, marks, length,
    );
    if code != 0 {
        return Listing {
            code,
            ..Listing::default()
        };
    }
    let shelf = live_shelf(k, points, live, order);
    let faces = faces(k, h, normals, offsets, marks);
    let (inside, outside) = write_places(&shelf, &faces, list);
    Listing {
        code: 0,
        inside,
        outside,
        visits: visits::visits(&shelf, &faces),
    }
}

/// Writes the inside and outside numbers into the first v places of `list`, and
/// gives the counts of both.
fn write_places(shelf: &Shelf, faces: &[Face], list: &mut [u32]) -> (u32, u32) {
    let (within, without) = inside_and_outside(shelf, faces);
    list[..shelf.slots.len()].copy_from_slice(&places(&within, &without));
    (within.len() as u32, without.len() as u32)
}

/// Writes the least and greatest coordinates of each slot's own branch into
/// `summary`, 2k for each, slot after slot.
pub fn summarise(
    k: usize,
    n: usize,
    points: &[i32],
    live: &[u8],
    order: &[u32],
    summary: &mut [i32],
) -> u32 {
    let code = refusals::of_summarise(k, n, points, live, order, summary.len());
    if code == 0 {
        summary.copy_from_slice(&tight::summary(&live_shelf(k, points, live, order)));
    }
    code
}

/// Writes the same lists as list does, with the visits by tight boxes, which the
/// summary must truly hold.
#[allow(clippy::too_many_arguments)]
pub fn list_tight(
    k: usize,
    n: usize,
    h: usize,
    points: &[i32],
    live: &[u8],
    order: &[u32],
    summary: &[i32],
    normals: &[i32],
    offsets: &[i64],
    marks: &[u8],
    list: &mut [u32],
) -> Listing {
    let length = list.len();
    let code = refusals::of_list_tight(
        k, n, h, points, live, order, summary, normals, offsets, marks, length,
    );
    if code != 0 {
        return Listing {
            code,
            ..Listing::default()
        };
    }
    let shelf = live_shelf(k, points, live, order);
    let faces = faces(k, h, normals, offsets, marks);
    let (inside, outside) = write_places(&shelf, &faces, list);
    Listing {
        code: 0,
        inside,
        outside,
        visits: tight::tight_visits(&shelf, &faces),
    }
}

/// Writes the same lists as list does, with the face tests made when each live
/// point stops at the first face that it is below.
#[allow(clippy::too_many_arguments)]
pub fn scan(
    k: usize,
    n: usize,
    h: usize,
    points: &[i32],
    live: &[u8],
    order: &[u32],
    normals: &[i32],
    offsets: &[i64],
    marks: &[u8],
    list: &mut [u32],
) -> Scanning {
    let length = list.len();
    let code = refusals::of_list(
        k, n, h, points, live, order, normals, offsets, marks, length,
    );
    if code != 0 {
        return Scanning {
            code,
            ..Scanning::default()
        };
    }
    let shelf = live_shelf(k, points, live, order);
    let faces = faces(k, h, normals, offsets, marks);
    let (inside, outside) = write_places(&shelf, &faces, list);
    Scanning {
        code: 0,
        inside,
        outside,
        tests: tests(&shelf, &faces),
    }
}

/// Gives the inside number in the lowest slot, or says that there is none.
#[allow(clippy::too_many_arguments)]
pub fn screen(
    k: usize,
    n: usize,
    h: usize,
    points: &[i32],
    live: &[u8],
    order: &[u32],
    normals: &[i32],
    offsets: &[i64],
    marks: &[u8],
) -> Screening {
    let code = refusals::of_screen(k, n, h, points, live, order, normals, offsets, marks);
    if code != 0 {
        return Screening {
            code,
            ..Screening::default()
        };
    }
    let shelf = live_shelf(k, points, live, order);
    let faces = faces(k, h, normals, offsets, marks);
    let number = found_number(&shelf, &faces);
    Screening {
        code: 0,
        found: u32::from(number.is_some()),
        number: number.unwrap_or(0),
        visits: visits_of_screen(&shelf, &faces),
    }
}

/// Tests one point against a region, and says by how much: the margin and its
/// face, or that there are no faces.
pub fn place(
    k: usize,
    h: usize,
    point: &[i32],
    normals: &[i32],
    offsets: &[i64],
    marks: &[u8],
) -> Placing {
    let code = refusals::of_place(k, h, point, normals, offsets, marks);
    if code != 0 {
        return Placing {
            code,
            ..Placing::default()
        };
    }
    let faces = faces(k, h, normals, offsets, marks);
    Placing {
        code: 0,
        inside: u32::from(inside(&faces, point)),
        measured: u32::from(!faces.is_empty()),
        face: face_of_margin(&faces, point).unwrap_or(0) as u16,
        margin: margin(&faces, point).unwrap_or(0) as i64,
    }
}

/// Says why the point of this number is inside or outside: the reason, its slot
/// and, for outside, the face and the point's distance number from it.
#[allow(clippy::too_many_arguments)]
pub fn explain(
    k: usize,
    n: usize,
    h: usize,
    number: u32,
    points: &[i32],
    live: &[u8],
    order: &[u32],
    normals: &[i32],
    offsets: &[i64],
    marks: &[u8],
) -> Explaining {
    let code = refusals::of_explain(
        k, n, h, number, points, live, order, normals, offsets, marks,
    );
    if code != 0 {
        return Explaining {
            code,
            ..Explaining::default()
        };
    }
    let shelf = live_shelf(k, points, live, order);
    let faces = faces(k, h, normals, offsets, marks);
    let why = why(&shelf, &faces, number).expect("a tree's slots hold every live number");
    Explaining {
        code: 0,
        reason: why.reason,
        face: why.face.unwrap_or(0) as u8,
        slot: why.slot as u16,
        margin: margin_to_face(&shelf, &faces, number, &why).unwrap_or(0) as i64,
    }
}

/// Writes the places of all regions into `lists`, v for each, and their counts
/// (inside, outside, visits) into `counts`, three for each, region after region.
#[allow(clippy::too_many_arguments)]
pub fn list_regions(
    k: usize,
    n: usize,
    regions: usize,
    points: &[i32],
    live: &[u8],
    order: &[u32],
    face_counts: &[u32],
    normals: &[i32],
    offsets: &[i64],
    marks: &[u8],
    lists: &mut [u32],
    counts: &mut [u32],
) -> u32 {
    let code = refusals::of_list_regions(
        k,
        n,
        regions,
        points,
        live,
        order,
        face_counts,
        normals,
        offsets,
        marks,
        lists.len(),
        counts.len(),
    );
    if code == 0 {
        let shelf = live_shelf(k, points, live, order);
        let all = faces_of_regions(k, face_counts, normals, offsets, marks);
        lists[..regions * shelf.slots.len()].copy_from_slice(&places_of_regions(&shelf, &all));
        counts[..regions * 3].copy_from_slice(&counts_of_regions(&shelf, &all));
    }
    code
}

/// Writes the point made from a colour of three values into the three places.
pub fn point_from_colour(first: f32, second: f32, third: f32, place: &mut [i32]) -> Making {
    let colour = Colour {
        first,
        second,
        third,
    };
    point_from_reading(Reading::Colour(colour), place)
}

/// Writes the point made from a grey of one value into the three places: its
/// number, then 0, 0.
pub fn point_from_grey(value: f32, place: &mut [i32]) -> Making {
    point_from_reading(Reading::Grey(value), place)
}

/// Makes no point, since nothing was measured, and writes nothing.
pub fn point_from_nothing(place: &mut [i32]) -> Making {
    point_from_reading(Reading::Nothing, place)
}

/// Writes the point made from the reading, if there is one, into the three
/// places.
fn point_from_reading(reading: Reading, place: &mut [i32]) -> Making {
    let code = refusals::of_reading(reading, place.len());
    if code != 0 {
        return Making { code, made: 0 };
    }
    let point = point_of_reading(reading);
    if let Some(point) = &point {
        place.copy_from_slice(point);
    }
    Making {
        code: 0,
        made: u32::from(point.is_some()),
    }
}

/// Writes the point at the lowest dead number, makes that number live and gives
/// it. The order is not touched.
pub fn take(k: usize, n: usize, points: &mut [i32], live: &mut [u8], point: &[i32]) -> Taking {
    let code = refusals::of_take(k, n, points, live, point);
    if code != 0 {
        return Taking { code, number: 0 };
    }
    let number = lowest_dead(live).expect("a take with none dead is refused");
    points[coordinates_of(k, number)].copy_from_slice(point);
    live[number as usize] = LIVE;
    Taking { code: 0, number }
}

/// Makes the live number dead. Neither points nor order are touched.
pub fn withdraw(n: usize, number: u32, live: &mut [u8]) -> u32 {
    let code = refusals::of_withdraw(n, number, live);
    if code == 0 {
        live[number as usize] = DEAD;
    }
    code
}

/// For each slot, in slot order, whether its branch is open for the region. An
/// error holds the number that list would refuse with.
#[allow(clippy::too_many_arguments)]
pub fn open_slots(
    k: usize,
    n: usize,
    h: usize,
    points: &[i32],
    live: &[u8],
    order: &[u32],
    normals: &[i32],
    offsets: &[i64],
    marks: &[u8],
) -> Result<Vec<bool>, u32> {
    match refusals::of_list(k, n, h, points, live, order, normals, offsets, marks, n) {
        0 => {
            let shelf = live_shelf(k, points, live, order);
            let faces = faces(k, h, normals, offsets, marks);
            Ok(visits::open_slots(&shelf, &faces))
        }
        code => Err(code),
    }
}

/// The visits of the region: how many slots are open. An error holds the number
/// that list would refuse with.
#[allow(clippy::too_many_arguments)]
pub fn visits_of_region(
    k: usize,
    n: usize,
    h: usize,
    points: &[i32],
    live: &[u8],
    order: &[u32],
    normals: &[i32],
    offsets: &[i64],
    marks: &[u8],
) -> Result<u32, u32> {
    let open = open_slots(k, n, h, points, live, order, normals, offsets, marks)?;
    Ok(open.into_iter().filter(|&is_open| is_open).count() as u32)
}

/// The visits of one face, its normal, offset m and mark, taken as a region
/// alone. An error holds the number that list would refuse with.
#[allow(clippy::too_many_arguments)]
pub fn visits_of_face(
    k: usize,
    n: usize,
    points: &[i32],
    live: &[u8],
    order: &[u32],
    normal: &[i32],
    m: i64,
    mark: u8,
) -> Result<u32, u32> {
    visits_of_region(k, n, 1, points, live, order, normal, &[m], &[mark])
}
