// meshoptimizer's meshopt_simplify: IN.obj FACES > OUT.obj. Vertices stay where they are.
#include <meshoptimizer.h>

#include "obj.h"

int main(int, char **words) {
    const Mesh whole = read_obj(words[1]);
    const size_t target = 3 * std::strtoul(words[2], nullptr, 10);
    std::vector<float> places;
    std::vector<unsigned> corners;
    for (const Place &p : whole.points) {
        places.insert(places.end(), p.begin(), p.end());
    }
    for (const Face &f : whole.faces) {
        corners.insert(corners.end(), f.begin(), f.end());
    }
    std::vector<unsigned> left(corners.size());
    const float any_error = 1e9f;
    left.resize(meshopt_simplify(left.data(), corners.data(), corners.size(), places.data(),
                                 whole.points.size(), 3 * sizeof(float), target, any_error));
    Mesh made{whole.points, {}};
    for (size_t i = 0; i < left.size(); i += 3) {
        made.faces.push_back({left[i], left[i + 1], left[i + 2]});
    }
    write_obj(made);
}
