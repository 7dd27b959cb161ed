// CGAL's k-d tree with its ordinary splitter and bucket size, and a query object for a region cut by faces. Single precision holds
// every coordinate exactly and is faster than double; sums of products are taken in double precision, where they are exact.
#include "contenders.h"
#include <CGAL/Dimension.h>
#include <CGAL/Kd_tree.h>
#include <CGAL/Kd_tree_rectangle.h>
#include <CGAL/Search_traits.h>
#include <vector>

namespace {

// A point and its number.
template <int K> struct Point {
    float coordinates[K];
    uint32_t number;
};

// Where the coordinates of a point begin and end.
template <int K> struct Coordinates {
    using result_type = const float *;
    const float *operator()(const Point<K> &point) const { return point.coordinates; }
    const float *operator()(const Point<K> &point, int) const { return point.coordinates + K; }
};

template <int K> using Traits = CGAL::Search_traits<float, Point<K>, const float *, Coordinates<K>, CGAL::Dimension_tag<K>>;
template <int K> using Tree = CGAL::Kd_tree<Traits<K>>;
template <int K> using Points = std::vector<Point<K>>;

// A region as a query: what a point inside it is, which boxes it may meet and which it holds whole.
template <int K> class Region {
  public:
    using Point_d = Point<K>;
    using FT = float;
    using D = CGAL::Dimension_tag<K>;

    Region(size_t h, const int32_t *normals, const int64_t *offsets)
        : normals(normals, normals + K * h), offsets(offsets, offsets + h) {}

    bool contains(const Point<K> &point) const {
        return every([&](int d, double) { return point.coordinates[d]; });
    }

    // Whether the corner furthest along each normal is above its face. CGAL asks the sense that may be too wide of this one.
    bool inner_range_intersects(const CGAL::Kd_tree_rectangle<float, D> &box) const {
        return every([&](int d, double component) { return component >= 0 ? box.max_coord(d) : box.min_coord(d); });
    }

    // Whether the corner furthest against each normal is above its face.
    bool outer_range_contains(const CGAL::Kd_tree_rectangle<float, D> &box) const {
        return every([&](int d, double component) { return component >= 0 ? box.min_coord(d) : box.max_coord(d); });
    }

  private:
    std::vector<double> normals, offsets;

    // Whether the corner that is chosen for each face is above it.
    template <class Corner> bool every(Corner corner) const {
        for (size_t face = 0; face < offsets.size(); face++) {
            double sum = 0;
            for (int d = 0; d < K; d++) {
                double component = normals[face * K + d];
                sum += component * corner(d, component);
            }
            if (sum < offsets[face]) return false;
        }
        return true;
    }
};

// Writes the number of each point that is put to it.
template <int K> struct Numbers {
    using iterator_category = std::output_iterator_tag;
    using value_type = void;
    using difference_type = void;
    using pointer = void;
    using reference = void;
    uint32_t *next;
    Numbers &operator*() { return *this; }
    Numbers &operator++() { return *this; }
    Numbers &operator++(int) { return *this; }
    void operator=(const Point<K> &point) { *next++ = point.number; }
};

// Marks the number of each point that is put to it.
template <int K> struct Marks {
    using iterator_category = std::output_iterator_tag;
    using value_type = void;
    using difference_type = void;
    using pointer = void;
    using reference = void;
    uint8_t *marks;
    Marks &operator*() { return *this; }
    Marks &operator++() { return *this; }
    Marks &operator++(int) { return *this; }
    void operator=(const Point<K> &point) { marks[point.number] = 1; }
};

// Writes both lists of the numbers in this order: those that are marked from the front, the others from the back; and takes the marks away.
size_t both_lists(size_t n, const uint32_t *order, uint8_t *marks, uint32_t *list) {
    size_t front = 0, back = n;
    for (size_t slot = 0; slot < n; slot++) {
        uint32_t number = order[slot];
        if (marks[number]) list[front++] = number;
        else list[--back] = number;
    }
    for (size_t place = 0; place < front; place++) marks[list[place]] = 0;
    return front;
}

} // namespace

void *cgal_points(size_t k, size_t n, const int32_t *points) {
    return with_dimension(k, [&](auto dimension) -> void * {
        constexpr int K = dimension();
        auto *made = new Points<K>(n);
        for (size_t number = 0; number < n; number++) {
            (*made)[number].number = number;
            for (int d = 0; d < K; d++) (*made)[number].coordinates[d] = points[number * K + d];
        }
        return made;
    });
}

void *cgal_build(const void *points, size_t k) {
    return with_dimension(k, [&](auto dimension) -> void * {
        const auto &from = *static_cast<const Points<dimension()> *>(points);
        auto *tree = new Tree<dimension()>(from.begin(), from.end());
        tree->build();
        return tree;
    });
}

size_t cgal_list(const void *tree, size_t k, size_t h, const int32_t *normals, const int64_t *offsets, uint32_t *found) {
    return with_dimension(k, [&](auto dimension) -> size_t {
        constexpr int K = dimension();
        Region<K> region(h, normals, offsets);
        return static_cast<const Tree<K> *>(tree)->search(Numbers<K>{found}, region).next - found;
    });
}

size_t cgal_list_both(const void *tree, size_t k, size_t n, size_t h, const uint32_t *order, const int32_t *normals,
                      const int64_t *offsets, uint8_t *marks, uint32_t *list) {
    with_dimension(k, [&](auto dimension) {
        constexpr int K = dimension();
        static_cast<const Tree<K> *>(tree)->search(Marks<K>{marks}, Region<K>(h, normals, offsets));
    });
    return both_lists(n, order, marks, list);
}

size_t cgal_any(const void *tree, size_t k, size_t h, const int32_t *normals, const int64_t *offsets, uint32_t *found) {
    return with_dimension(k, [&](auto dimension) -> size_t {
        constexpr int K = dimension();
        auto any = static_cast<const Tree<K> *>(tree)->search_any_point(Region<K>(h, normals, offsets));
        if (any) *found = any->number;
        return any ? 1 : 0;
    });
}

void cgal_free_tree(void *tree, size_t k) {
    with_dimension(k, [&](auto dimension) { delete static_cast<Tree<dimension()> *>(tree); });
}

void cgal_free_points(void *points, size_t k) {
    with_dimension(k, [&](auto dimension) { delete static_cast<Points<dimension()> *>(points); });
}
