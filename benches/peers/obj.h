// Reads and writes meshes as OBJ texts.
#pragma once
#include <array>
#include <cstdio>
#include <cstdlib>
#include <fstream>
#include <sstream>
#include <string>
#include <vector>

using Place = std::array<double, 3>;
using Face = std::array<unsigned, 3>;

struct Mesh {
    std::vector<Place> points;
    std::vector<Face> faces;  // from 0
};

inline Mesh read_obj(const char *path) {
    Mesh mesh;
    std::ifstream lines(path);
    if (!lines) {
        std::fprintf(stderr, "%s can't be read\n", path);
        std::exit(1);
    }
    for (std::string line; std::getline(lines, line);) {
        Place p;
        Face f;
        if (std::sscanf(line.c_str(), "v %lf %lf %lf", &p[0], &p[1], &p[2]) == 3) {
            mesh.points.push_back(p);
        } else if (std::sscanf(line.c_str(), "f %u %u %u", &f[0], &f[1], &f[2]) == 3) {
            mesh.faces.push_back({f[0] - 1, f[1] - 1, f[2] - 1});
        }
    }
    return mesh;
}

inline void write_obj(const Mesh &mesh) {
    for (const Place &p : mesh.points) {
        std::printf("v %.4f %.4f %.4f\n", p[0], p[1], p[2]);
    }
    for (const Face &f : mesh.faces) {
        std::printf("f %u %u %u\n", f[0] + 1, f[1] + 1, f[2] + 1);
    }
}
