//! The plain scan: every point against the faces in turn, up to the first that it is below.

use crate::region::Region;
use crate::stock::Stock;

/// Lists the numbers of the order, inside ones from the front and outside ones from the back, and gives how many are inside.
pub fn scan(stock: &Stock, order: &[u32], region: &Region, list: &mut [u32]) -> usize {
    let (mut front, mut back) = (0, order.len());
    for &number in order {
        let first = number as usize * stock.k;
        if inside(&stock.points[first..first + stock.k], region) {
            list[front] = number;
            front += 1;
        } else {
            back -= 1;
            list[back] = number;
        }
    }
    front
}

/// Whether the point is above every face.
fn inside(point: &[i32], region: &Region) -> bool {
    let normals = region.normals.chunks_exact(point.len());
    let mut faces = normals.zip(&region.least);
    faces.all(|(normal, &least)| {
        let products = normal.iter().zip(point);
        let sum: i64 = products.map(|(&a, &b)| i64::from(a) * i64::from(b)).sum();
        sum >= least
    })
}
