// The contenders in C++, as C functions. Points are lent as the library takes them: k numbers for each of n points, point 0 first.
#pragma once
#include <cstddef>
#include <cstdint>
#include <type_traits>

extern "C" {
// Builds nanoflann's index of the points, which are lent for as long as the index lives.
void *nanoflann_build(size_t k, size_t n, const int32_t *points, size_t leaf);
// How many points the index finds nearer to the centre than the root of the squared distance.
size_t nanoflann_near(const void *index, size_t k, const int32_t *centre, double squared);
// Gives the index back.
void nanoflann_free(void *index, size_t k);

// The points in the form that CGAL keeps, made once and outside of any time.
void *cgal_points(size_t k, size_t n, const int32_t *points);
// Builds CGAL's tree of such points.
void *cgal_build(const void *points, size_t k);
// Writes the numbers of the points inside the region in the tree's own order, and returns how many.
size_t cgal_list(const void *tree, size_t k, size_t h, const int32_t *normals, const int64_t *offsets, uint32_t *found);
// Writes both lists as the library does, in shelf order, and returns how many are inside: it marks those inside, and then goes over the order
// once. The marks, one for each number, are 0 before and after.
size_t cgal_list_both(const void *tree, size_t k, size_t n, size_t h, const uint32_t *order, const int32_t *normals,
                      const int64_t *offsets, uint8_t *marks, uint32_t *list);
// Writes the number of one point inside the region, whichever the tree comes to first, and returns how many it wrote: 1 or 0.
size_t cgal_any(const void *tree, size_t k, size_t h, const int32_t *normals, const int64_t *offsets, uint32_t *found);
// Gives a tree or the points back.
void cgal_free_tree(void *tree, size_t k);
void cgal_free_points(void *points, size_t k);

// Tests every point of the order against the faces in turn; inside numbers from the front of the list, outside ones from its back.
size_t scan_slots(size_t k, size_t n, size_t h, const int32_t *points, const uint32_t *order, const int32_t *normals,
                  const int64_t *offsets, uint32_t *list);
// The same in the order of the numbers, with no order of slots at all, and compiled for each dimension.
size_t scan_numbers(size_t k, size_t n, size_t h, const int32_t *points, const int32_t *normals, const int64_t *offsets,
                    uint32_t *list);
}

// Calls the function object with the dimension as a constant, so that each contender is compiled for its dimension.
template <class F> auto with_dimension(size_t k, F f) {
    switch (k) {
    case 1: return f(std::integral_constant<int, 1>());
    case 2: return f(std::integral_constant<int, 2>());
    case 3: return f(std::integral_constant<int, 3>());
    default: return f(std::integral_constant<int, 4>());
    }
}
