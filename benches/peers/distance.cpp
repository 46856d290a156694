// How far two meshes are from one another: ONE.obj OTHER.obj SAMPLES
//
// Prints the mean, the root mean square and the greatest distance from places of the first to the
// second, and then the other way. Places are SAMPLES that are spread evenly by area, the same in
// each run, and the corners of the faces, which count for the greatest alone, since they stand
// close where a mesh is fine. A distance is to the nearest place of the other mesh's faces, found
// by a tree of boxes.
#include <algorithm>
#include <cmath>
#include <limits>
#include <random>

#include "obj.h"

static Place minus(const Place &p, const Place &q) {
    return {p[0] - q[0], p[1] - q[1], p[2] - q[2]};
}

static double dot(const Place &p, const Place &q) {
    return p[0] * q[0] + p[1] * q[1] + p[2] * q[2];
}

static Place cross(const Place &p, const Place &q) {
    return {p[1] * q[2] - p[2] * q[1], p[2] * q[0] - p[0] * q[2], p[0] * q[1] - p[1] * q[0]};
}

static double squared_to_side(const Place &p, const Place &a, const Place &b) {
    const Place ab = minus(b, a), ap = minus(p, a);
    const double whole = dot(ab, ab);
    const double part = whole > 0 ? std::clamp(dot(ap, ab) / whole, 0.0, 1.0) : 0;
    const Place way = {ap[0] - part * ab[0], ap[1] - part * ab[1], ap[2] - part * ab[2]};
    return dot(way, way);
}

using Triangle = std::array<Place, 3>;

// The squared distance from a place to a triangle: to its plane where the place is above the
// inside, and else to the nearest side.
static double squared_to_triangle(const Place &p, const Triangle &t) {
    const Place normal = cross(minus(t[1], t[0]), minus(t[2], t[0]));
    bool inside = dot(normal, normal) > 0;
    double nearest = std::numeric_limits<double>::infinity();
    for (int i = 0; i < 3; ++i) {
        const Place &a = t[i], &b = t[(i + 1) % 3];
        inside = inside && dot(cross(minus(b, a), minus(p, a)), normal) >= 0;
        nearest = std::min(nearest, squared_to_side(p, a, b));
    }
    if (!inside) {
        return nearest;
    }
    const double above = dot(minus(p, t[0]), normal);
    return above * above / dot(normal, normal);
}

// Triangles in boxes, each parted in halves along its longest axis. Box i has parts 2i and 2i + 1.
class Tree {
public:
    explicit Tree(const Mesh &mesh) {
        for (const Face &f : mesh.faces) {
            triangles.push_back({mesh.points[f[0]], mesh.points[f[1]], mesh.points[f[2]]});
        }
        part(1, 0, triangles.size());
    }

    double squared_way(const Place &p) const {
        double best = std::numeric_limits<double>::infinity();
        look(p, 1, best);
        return best;
    }

private:
    static constexpr size_t FEW = 4;
    struct Box {
        Place low, high;
        size_t first, last;
        double squared_way(const Place &p) const {
            double total = 0;
            for (int i = 0; i < 3; ++i) {
                const double off = std::max({low[i] - p[i], 0.0, p[i] - high[i]});
                total += off * off;
            }
            return total;
        }
    };
    std::vector<Triangle> triangles;
    std::vector<Box> boxes;

    void part(size_t box, size_t first, size_t last) {
        Place low = triangles[first][0], high = low;
        for (size_t t = first; t < last; ++t) {
            for (const Place &p : triangles[t]) {
                for (int i = 0; i < 3; ++i) {
                    low[i] = std::min(low[i], p[i]);
                    high[i] = std::max(high[i], p[i]);
                }
            }
        }
        boxes.resize(std::max(boxes.size(), box + 1));
        boxes[box] = {low, high, first, last};
        if (last - first <= FEW) {
            return;
        }
        const Place size = minus(high, low);
        const size_t axis = std::max_element(size.begin(), size.end()) - size.begin();
        const auto middle = [axis](const Triangle &t) {
            return t[0][axis] + t[1][axis] + t[2][axis];
        };
        const size_t half = (first + last) / 2;
        std::nth_element(
            triangles.begin() + first, triangles.begin() + half, triangles.begin() + last,
            [&](const Triangle &a, const Triangle &b) { return middle(a) < middle(b); });
        part(2 * box, first, half);
        part(2 * box + 1, half, last);
    }

    void look(const Place &p, size_t box, double &best) const {
        const Box &here = boxes[box];
        if (here.squared_way(p) >= best) {
            return;
        }
        if (here.last - here.first <= FEW) {
            for (size_t t = here.first; t < here.last; ++t) {
                best = std::min(best, squared_to_triangle(p, triangles[t]));
            }
            return;
        }
        const bool swap = boxes[2 * box + 1].squared_way(p) < boxes[2 * box].squared_way(p);
        look(p, 2 * box + swap, best);
        look(p, 2 * box + !swap, best);
    }
};

static std::vector<Place> corners(const Mesh &mesh) {
    std::vector<Place> found;
    std::vector<bool> used(mesh.points.size());
    for (const Face &f : mesh.faces) {
        for (const unsigned corner : f) {
            if (!used[corner]) {
                found.push_back(mesh.points[corner]);
            }
            used[corner] = true;
        }
    }
    return found;
}

// The areas of the faces up to each, doubled.
static std::vector<double> areas_up_to(const Mesh &mesh) {
    std::vector<double> areas;
    double total = 0;
    for (const Face &f : mesh.faces) {
        const Place &a = mesh.points[f[0]];
        const Place normal = cross(minus(mesh.points[f[1]], a), minus(mesh.points[f[2]], a));
        areas.push_back(total += std::sqrt(dot(normal, normal)));
    }
    return areas;
}

// Places on the faces: one at random in each of as many equal parts of the area.
static std::vector<Place> spread(const Mesh &mesh, size_t samples) {
    const std::vector<double> areas = areas_up_to(mesh);
    std::mt19937_64 chance(1);
    const auto random = [&chance] { return (chance() >> 11) * 0x1p-53; };
    std::vector<Place> found;
    for (size_t i = 0; i < samples; ++i) {
        const double at = areas.back() * (i + random()) / samples;
        const size_t face = std::upper_bound(areas.begin(), areas.end() - 1, at) - areas.begin();
        const double one = random(), other = random();
        const double u = std::min(one, other), v = std::max(one, other);
        const Face &f = mesh.faces[face];
        const Place &a = mesh.points[f[0]], &b = mesh.points[f[1]], &c = mesh.points[f[2]];
        Place p;
        for (int k = 0; k < 3; ++k) {
            p[k] = u * a[k] + (v - u) * b[k] + (1 - v) * c[k];
        }
        found.push_back(p);
    }
    return found;
}

static void tell(const Mesh &from, const Mesh &to, size_t samples) {
    const Tree tree(to);
    double sum = 0, squares = 0, greatest = 0;
    for (const Place &p : spread(from, samples)) {
        const double squared = tree.squared_way(p);
        squares += squared;
        sum += std::sqrt(squared);
        greatest = std::max(greatest, squared);
    }
    for (const Place &p : corners(from)) {
        greatest = std::max(greatest, tree.squared_way(p));
    }
    const double count = double(samples);
    std::printf("%.6f %.6f %.6f\n", sum / count, std::sqrt(squares / count), std::sqrt(greatest));
}

int main(int, char **words) {
    const Mesh one = read_obj(words[1]), other = read_obj(words[2]);
    const size_t samples = std::strtoul(words[3], nullptr, 10);
    if (one.faces.empty() || other.faces.empty()) {
        std::fprintf(stderr, "a mesh without faces is nowhere\n");
        return 1;
    }
    tell(one, other, samples);
    tell(other, one, samples);
}
