//! Flies round a model, follows its mesh by changes alone, and tells what each view took:
//!
//!     cargo run --release --example fly model.vdpm [VIEWS]
use std::collections::BTreeMap;
use std::f64::consts::TAU;
use vdpm::library::{Change, View, Viewer};

const RADIUS: f64 = 30000.0;
const HEIGHT: i32 = 12000;

/// A mesh that a program keeps beside the viewer: nodes and faces by their numbers.
#[derive(Default)]
struct Mesh {
    nodes: BTreeMap<u32, [i32; 3]>,
    faces: BTreeMap<u32, [u32; 3]>,
}

impl Mesh {
    /// Does a change: takes out what is gone, and puts the rest in by number.
    fn follow(&mut self, change: &Change) {
        for face in &change.gone_faces {
            self.faces.remove(face);
        }
        for node in &change.gone_nodes {
            self.nodes.remove(node);
        }
        let places = change.new_places.chunks_exact(3).map(|it| [it[0], it[1], it[2]]);
        self.nodes.extend(change.new_nodes.iter().copied().zip(places));
        let corners = change.put_corners.chunks_exact(3).map(|it| [it[0], it[1], it[2]]);
        self.faces.extend(change.put_faces.iter().copied().zip(corners));
    }
}

/// The mesh that a viewer shows.
fn shown(viewer: &mut Viewer) -> Result<Mesh, vdpm::library::Fault> {
    let frame = viewer.frame()?;
    let mut mesh = Mesh::default();
    mesh.follow(&Change {
        new_nodes: frame.nodes,
        new_places: frame.places,
        put_faces: frame.faces,
        put_corners: frame.corner_nodes,
        ..Change::default()
    });
    Ok(mesh)
}

fn main() -> Result<(), Box<dyn std::error::Error>> {
    let mut words = std::env::args().skip(1);
    let name = words.next().ok_or("fly model.vdpm [VIEWS]")?;
    let views: u32 = words.next().map_or(Ok(8), |word| word.parse())?;
    let mut viewer = Viewer::open(&std::fs::read(name)?, u32::MAX)?;
    let (mut mesh, mut change) = (shown(&mut viewer)?, Change::default());
    for i in 0..views {
        let way = TAU * f64::from(i) / f64::from(views);
        let (x, y) = ((RADIUS * way.cos()) as i32, (RADIUS * way.sin()) as i32);
        let view = View { eye: [x, y, HEIGHT], focal: 1000, tolerance: 8, ..View::default() };
        let moved = viewer.view(&view)?;
        viewer.change_into(&mut change)?;
        mesh.follow(&change);
        let (nodes, faces) = (mesh.nodes.len(), mesh.faces.len());
        println!("{x:6} {y:6}: {} moves, {nodes} vertices, {faces} faces", moved.moves);
    }
    Ok(())
}
