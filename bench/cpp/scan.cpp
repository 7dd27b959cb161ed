// The plain scan: every point against the faces in turn, up to the first that it is below.
#include "contenders.h"

namespace {

// A number of dimensions that is known only when it is called, or already to the compiler.
template <int K> struct Known {
    size_t operator()() const { return K; }
};
struct Given {
    size_t k;
    size_t operator()() const { return k; }
};

// Whether the point is above every face.
template <class Dimensions>
bool inside(Dimensions k, const int32_t *point, size_t h, const int32_t *normals, const int64_t *offsets) {
    for (size_t face = 0; face < h; face++) {
        int64_t sum = 0;
        for (size_t d = 0; d < k(); d++) sum += int64_t(normals[face * k() + d]) * point[d];
        if (sum < offsets[face]) return false;
    }
    return true;
}

// Scans n numbers, which a function object gives place by place, into both ends of the list.
template <class Dimensions, class Number>
size_t scan(Dimensions k, size_t n, Number number, size_t h, const int32_t *points, const int32_t *normals, const int64_t *offsets,
            uint32_t *list) {
    size_t front = 0, back = n;
    for (size_t place = 0; place < n; place++) {
        uint32_t p = number(place);
        if (inside(k, points + p * k(), h, normals, offsets)) list[front++] = p;
        else list[--back] = p;
    }
    return front;
}

} // namespace

size_t scan_slots(size_t k, size_t n, size_t h, const int32_t *points, const uint32_t *order, const int32_t *normals,
                  const int64_t *offsets, uint32_t *list) {
    return scan(Given{k}, n, [&](size_t slot) { return order[slot]; }, h, points, normals, offsets, list);
}

size_t scan_numbers(size_t k, size_t n, size_t h, const int32_t *points, const int32_t *normals, const int64_t *offsets,
                    uint32_t *list) {
    return with_dimension(k, [&](auto dimension) {
        return scan(Known<dimension()>(), n, [](size_t place) { return uint32_t(place); }, h, points, normals, offsets, list);
    });
}
