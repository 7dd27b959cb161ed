//! The contenders in C++.

use crate::region::Region;
use crate::stock::Stock;
use std::ffi::c_void;
use std::marker::PhantomData;

#[rustfmt::skip]
extern "C" {
    fn nanoflann_build(k: usize, n: usize, points: *const i32, leaf: usize) -> *mut c_void;
    fn nanoflann_near(index: *const c_void, k: usize, centre: *const i32, squared: f64) -> usize;
    fn nanoflann_free(index: *mut c_void, k: usize);
    fn cgal_points(k: usize, n: usize, points: *const i32) -> *mut c_void;
    fn cgal_build(points: *const c_void, k: usize) -> *mut c_void;
    fn cgal_list(tree: *const c_void, k: usize, h: usize, normals: *const i32, offsets: *const i64, found: *mut u32) -> usize;
    fn cgal_list_both(tree: *const c_void, k: usize, n: usize, h: usize, order: *const u32, normals: *const i32, offsets: *const i64, marks: *mut u8, list: *mut u32) -> usize;
    fn cgal_any(tree: *const c_void, k: usize, h: usize, normals: *const i32, offsets: *const i64, found: *mut u32) -> usize;
    fn cgal_free_tree(tree: *mut c_void, k: usize);
    fn cgal_free_points(points: *mut c_void, k: usize);
    fn scan_slots(k: usize, n: usize, h: usize, points: *const i32, order: *const u32, normals: *const i32, offsets: *const i64, list: *mut u32) -> usize;
    fn scan_numbers(k: usize, n: usize, h: usize, points: *const i32, normals: *const i32, offsets: *const i64, list: *mut u32) -> usize;
}

/// nanoflann's index of a shelf, which it refers to.
pub struct Nanoflann<'a> {
    index: *mut c_void,
    k: usize,
    lent: PhantomData<&'a Stock>,
}

impl Nanoflann<'_> {
    /// Builds the index with leaves of at most this many points.
    pub fn build(stock: &Stock, leaf: usize) -> Nanoflann<'_> {
        let (k, lent) = (stock.k, PhantomData);
        // SAFETY: the points are k times n long and outlive the index.
        let index = unsafe { nanoflann_build(k, stock.n, stock.points.as_ptr(), leaf) };
        Nanoflann { index, k, lent }
    }

    /// How many points are nearer to the centre than the root of the squared distance.
    pub fn near(&self, centre: &[i32], squared: i64) -> usize {
        assert_eq!(centre.len(), self.k);
        // SAFETY: the index is alive, and the centre is k long.
        unsafe { nanoflann_near(self.index, self.k, centre.as_ptr(), squared as f64) }
    }
}

impl Drop for Nanoflann<'_> {
    /// Gives the index back.
    fn drop(&mut self) {
        // SAFETY: the index was built for this k and is given back once.
        unsafe { nanoflann_free(self.index, self.k) }
    }
}

/// A shelf's points in the form that CGAL keeps.
pub struct CgalPoints {
    points: *mut c_void,
    k: usize,
}

impl CgalPoints {
    /// Copies the points of a shelf.
    pub fn new(stock: &Stock) -> CgalPoints {
        // SAFETY: the points are k times n long and only read.
        let points = unsafe { cgal_points(stock.k, stock.n, stock.points.as_ptr()) };
        CgalPoints { points, k: stock.k }
    }
}

impl Drop for CgalPoints {
    /// Gives the points back.
    fn drop(&mut self) {
        // SAFETY: the points were made for this k and are given back once.
        unsafe { cgal_free_points(self.points, self.k) }
    }
}

/// CGAL's tree, with its own copy of the points.
pub struct CgalTree {
    tree: *mut c_void,
    k: usize,
}

impl CgalTree {
    /// Builds the tree.
    pub fn build(points: &CgalPoints) -> CgalTree {
        // SAFETY: the points are alive, and the tree copies them.
        let tree = unsafe { cgal_build(points.points, points.k) };
        CgalTree { tree, k: points.k }
    }

    /// Writes the numbers inside the region, in the tree's own order, and gives how many there are. The buffer must hold all numbers.
    pub fn list(&self, region: &Region, found: &mut [u32]) -> usize {
        let (normals, least) = (region.normals.as_ptr(), region.least.as_ptr());
        // SAFETY: the faces are as long as h and k say, and the buffer holds all numbers.
        unsafe {
            let found = found.as_mut_ptr();
            cgal_list(self.tree, self.k, region.h, normals, least, found)
        }
    }

    /// Writes both lists as the library does, in the order of the slots, and gives how many are inside. There must be a mark for each number,
    /// which is 0 before and after.
    #[rustfmt::skip]
    pub fn list_both(&self, order: &[u32], region: &Region, marks: &mut [u8], list: &mut [u32]) -> usize {
        let n = order.len();
        assert!(marks.len() == n && list.len() == n);
        // SAFETY: the faces are as long as h and k say, the order holds numbers of the tree, and marks and list are n long.
        unsafe {
            cgal_list_both(
                self.tree, self.k, n, region.h, order.as_ptr(), region.normals.as_ptr(),
                region.least.as_ptr(), marks.as_mut_ptr(), list.as_mut_ptr(),
            )
        }
    }

    /// The number of the first point inside the region that the search comes to, in the tree's own order, if there is one.
    pub fn any(&self, region: &Region) -> Option<u32> {
        let (normals, least) = (region.normals.as_ptr(), region.least.as_ptr());
        let mut number = 0;
        // SAFETY: the faces are as long as h and k say, and there is room for one number.
        let found = unsafe { cgal_any(self.tree, self.k, region.h, normals, least, &mut number) };
        (found == 1).then_some(number)
    }
}

impl Drop for CgalTree {
    /// Gives the tree back.
    fn drop(&mut self) {
        // SAFETY: the tree was built for this k and is given back once.
        unsafe { cgal_free_tree(self.tree, self.k) }
    }
}

/// The plain scan in the order of the slots.
#[rustfmt::skip]
pub fn scan(stock: &Stock, order: &[u32], region: &Region, list: &mut [u32]) -> usize {
    assert!(order.len() == stock.n && list.len() == stock.n);
    // SAFETY: order and list are n long, and the order holds numbers of the shelf.
    unsafe {
        scan_slots(
            stock.k, stock.n, region.h, stock.points.as_ptr(), order.as_ptr(),
            region.normals.as_ptr(), region.least.as_ptr(), list.as_mut_ptr(),
        )
    }
}

/// The plain scan in the order of the numbers, compiled for each dimension.
#[rustfmt::skip]
pub fn scan_by_number(stock: &Stock, region: &Region, list: &mut [u32]) -> usize {
    assert!(list.len() == stock.n);
    // SAFETY: the list is n long.
    unsafe {
        scan_numbers(
            stock.k, stock.n, region.h, stock.points.as_ptr(),
            region.normals.as_ptr(), region.least.as_ptr(), list.as_mut_ptr(),
        )
    }
}
