// OpenMesh's DecimaterT by quadrics: IN.obj FACES > OUT.obj.
#include <OpenMesh/Core/Mesh/TriMesh_ArrayKernelT.hh>
#include <OpenMesh/Tools/Decimater/DecimaterT.hh>
#include <OpenMesh/Tools/Decimater/ModQuadricT.hh>

#include "obj.h"

struct Doubles : OpenMesh::DefaultTraits {
    typedef OpenMesh::Vec3d Point;
};
using Surface = OpenMesh::TriMesh_ArrayKernelT<Doubles>;

int main(int, char **words) {
    const Mesh whole = read_obj(words[1]);
    const size_t target = std::strtoul(words[2], nullptr, 10);
    Surface surface;
    for (const Place &p : whole.points) {
        surface.add_vertex({p[0], p[1], p[2]});
    }
    for (const Face &f : whole.faces) {
        surface.add_face(surface.vertex_handle(f[0]), surface.vertex_handle(f[1]),
                         surface.vertex_handle(f[2]));
    }
    OpenMesh::Decimater::DecimaterT<Surface> decimater(surface);
    OpenMesh::Decimater::ModQuadricT<Surface>::Handle quadric;
    decimater.add(quadric);
    decimater.module(quadric).unset_max_err();
    decimater.initialize();
    decimater.decimate_to_faces(0, target);
    surface.garbage_collection();
    Mesh made;
    for (const auto v : surface.vertices()) {
        const auto &p = surface.point(v);
        made.points.push_back({p[0], p[1], p[2]});
    }
    for (const auto f : surface.faces()) {
        Face corners;
        auto to = corners.begin();
        for (const auto v : surface.fv_range(f)) {
            *to++ = unsigned(v.idx());
        }
        made.faces.push_back(corners);
    }
    write_obj(made);
}
