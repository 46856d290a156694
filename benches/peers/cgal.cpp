// CGAL's edge collapse: IN.obj FACES > OUT.obj, by Garland and Heckbert's cost of planes; by
// Lindstrom and Turk's where LINDSTROM_TURK is defined.
#include <CGAL/Simple_cartesian.h>
#include <CGAL/Surface_mesh.h>
#include <CGAL/Surface_mesh_simplification/Policies/Edge_collapse/GarlandHeckbert_plane_policies.h>
#include <CGAL/Surface_mesh_simplification/Policies/Edge_collapse/LindstromTurk_cost.h>
#include <CGAL/Surface_mesh_simplification/Policies/Edge_collapse/LindstromTurk_placement.h>
#include <CGAL/Surface_mesh_simplification/edge_collapse.h>

#include "obj.h"

namespace SMS = CGAL::Surface_mesh_simplification;
using Kernel = CGAL::Simple_cartesian<double>;
using Surface = CGAL::Surface_mesh<Kernel::Point_3>;

// Stops where so many faces are left. An edge of the border takes one with it, any other two.
struct FewFaces {
    size_t target;
    template <class Cost, class Profile>
    bool operator()(const Cost &, const Profile &profile, size_t, size_t) const {
        return profile.surface_mesh().number_of_faces() <= target;
    }
};

int main(int, char **words) {
    const Mesh whole = read_obj(words[1]);
    const FewFaces stop{std::strtoul(words[2], nullptr, 10)};
    Surface surface;
    for (const Place &p : whole.points) {
        surface.add_vertex({p[0], p[1], p[2]});
    }
    for (const Face &f : whole.faces) {
        surface.add_face(Surface::Vertex_index(f[0]), Surface::Vertex_index(f[1]),
                         Surface::Vertex_index(f[2]));
    }
#ifdef LINDSTROM_TURK
    SMS::edge_collapse(surface, stop,
                       CGAL::parameters::get_cost(SMS::LindstromTurk_cost<Surface>())
                           .get_placement(SMS::LindstromTurk_placement<Surface>()));
#else
    SMS::GarlandHeckbert_plane_policies<Surface, Kernel> policies(surface);
    SMS::edge_collapse(surface, stop,
                       CGAL::parameters::get_cost(policies.get_cost())
                           .get_placement(policies.get_placement()));
#endif
    surface.collect_garbage();
    Mesh made;
    for (const auto v : surface.vertices()) {
        const auto &p = surface.point(v);
        made.points.push_back({p.x(), p.y(), p.z()});
    }
    for (const auto f : surface.faces()) {
        Face corners;
        auto to = corners.begin();
        for (const auto v : CGAL::vertices_around_face(surface.halfedge(f), surface)) {
            *to++ = unsigned(v);
        }
        made.faces.push_back(corners);
    }
    write_obj(made);
}
