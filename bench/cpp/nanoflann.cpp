// nanoflann's index of whole-number points. Whole numbers are its fastest form of these points: nothing is converted.
#include "contenders.h"
#include <nanoflann.hpp>
#include <utility>
#include <vector>

namespace {

// The lent points, as nanoflann asks for them.
template <int K> struct Cloud {
    size_t n;
    const int32_t *points;
    size_t kdtree_get_point_count() const { return n; }
    int32_t kdtree_get_pt(size_t number, size_t dimension) const { return points[number * K + dimension]; }
    template <class Box> bool kdtree_get_bbox(Box &) const { return false; }
};

template <int K> using Distance = nanoflann::L2_Simple_Adaptor<int32_t, Cloud<K>, double, uint32_t>;
template <int K> using Tree = nanoflann::KDTreeSingleIndexAdaptor<Distance<K>, Cloud<K>, K, uint32_t>;

// The tree beside the points that it refers to.
template <int K> struct Index {
    Cloud<K> cloud;
    Tree<K> tree;
    Index(size_t n, const int32_t *points, size_t leaf)
        : cloud{n, points}, tree(K, cloud, nanoflann::KDTreeSingleIndexAdaptorParams(leaf)) {}
};

} // namespace

void *nanoflann_build(size_t k, size_t n, const int32_t *points, size_t leaf) {
    return with_dimension(k, [&](auto dimension) -> void * { return new Index<dimension()>(n, points, leaf); });
}

size_t nanoflann_near(const void *index, size_t k, const int32_t *centre, double squared) {
    return with_dimension(k, [&](auto dimension) {
        std::vector<std::pair<uint32_t, double>> found;
        const auto &tree = static_cast<const Index<dimension()> *>(index)->tree;
        return tree.radiusSearch(centre, squared, found, nanoflann::SearchParams());
    });
}

void nanoflann_free(void *index, size_t k) {
    with_dimension(k, [&](auto dimension) { delete static_cast<Index<dimension()> *>(index); });
}
