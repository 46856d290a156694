//! A hierarchy that is being shown.

use super::{make_room, Fault, Moved, View};
use crate::pm_change::ChangeSizes;
use crate::pm_viewer;
use crate::rattle_std::alloc::Global;

/// How large a hierarchy and the mesh that is shown of it are.
#[derive(Clone, Copy, Debug, PartialEq, Eq)]
pub struct Sizes {
    /// Active nodes: the vertices of the mesh shown.
    pub shown_nodes: u32,
    /// The faces of the mesh shown.
    pub shown_faces: u32,
    /// Nodes in all.
    pub nodes: u32,
    /// Leaves: the vertices of the full mesh.
    pub leaves: u32,
    /// Records: each is a vertex split.
    pub records: u32,
    /// Decimals of a coordinate, 0 to 4.
    pub digits: u32,
}

/// The mesh that is shown.
#[derive(Clone, Debug, Default, PartialEq, Eq)]
pub struct Frame {
    /// The active nodes, ascending.
    pub nodes: Vec<u32>,
    /// The coordinates of each, three numbers.
    pub places: Vec<i32>,
    /// The kept faces, ascending.
    pub faces: Vec<u32>,
    /// The corners of each, as three positions in `nodes`: an index buffer.
    pub corners: Vec<u32>,
    /// The same corners as node numbers.
    pub corner_nodes: Vec<u32>,
}

/// What changed since the marked front. Who has the mesh of that front takes out what is gone, and
/// puts the rest in by number, in place of what has this number.
#[derive(Clone, Debug, Default, PartialEq, Eq)]
pub struct Change {
    /// Faces that were shown and aren't, ascending.
    pub gone_faces: Vec<u32>,
    /// Nodes that were active and aren't, ascending.
    pub gone_nodes: Vec<u32>,
    /// Nodes that are active and weren't, ascending.
    pub new_nodes: Vec<u32>,
    /// The coordinates of each new node, three numbers.
    pub new_places: Vec<i32>,
    /// Faces that are shown and weren't, or were with another corner, ascending.
    pub put_faces: Vec<u32>,
    /// The corners of each, as three node numbers.
    pub put_corners: Vec<u32>,
}

/// A node of the hierarchy.
#[derive(Clone, Copy, Debug, PartialEq, Eq)]
pub struct Node {
    /// Its coordinates.
    pub place: [i32; 3],
    /// The record that splits it; none for a node of one leaf.
    pub splitter: Option<u32>,
    /// The record that made it; none for a root.
    pub maker: Option<u32>,
}

/// A hierarchy that is being shown.
///
/// ```
/// use vdpm::library::{build, Asked, Viewer};
///
/// # fn main() -> Result<(), vdpm::library::Fault> {
/// let text = b"v 0 0 0\nv 8 0 0\nv 8 8 0\nv 0 8 0\nf 1 2 3\nf 1 3 4\n";
/// let mut viewer = Viewer::open(build(text, Asked::default())?.as_bytes(), u32::MAX)?;
/// for record in 0..viewer.sizes().records {
///     assert_eq!(viewer.line(format!("s {record}").as_bytes())?, b"ok\n");
/// }
/// assert_eq!(viewer.change()?.new_nodes.is_empty(), viewer.sizes().records == 0);
/// assert_eq!(viewer.frame()?.faces.len(), 2);
/// # Ok(())
/// # }
/// ```
pub struct Viewer {
    inner: pm_viewer::Viewer,
}

impl Viewer {
    /// Opens the bytes of a stream, and shows its base mesh. A view makes at most `budget` moves.
    ///
    /// # Errors
    ///
    /// [`Fault::Refused`] where `vdpm check` refuses the bytes; [`Fault::OutOfMemory`].
    pub fn open(stream: &[u8], budget: u32) -> Result<Viewer, Fault> {
        Ok(Viewer { inner: pm_viewer::Viewer::open(Global, stream, budget)? })
    }

    /// Does one script line of `vdpm live`, given without its LF, and answers its reply. The line
    /// `q` does nothing here.
    ///
    /// # Errors
    ///
    /// [`Fault::Refused`] with 30 where the line is none of the forms and 31 where it names no
    /// record: nothing is done then. [`Fault::OutOfMemory`]: it is done, and its reply is cut off.
    pub fn line(&mut self, line: &[u8]) -> Result<&[u8], Fault> {
        self.inner.line(line)?;
        Ok(self.inner.reply())
    }

    /// Adapts the mesh shown to a view.
    ///
    /// # Errors
    ///
    /// [`Fault::Refused`] with 30 where a number of the view is out of its range.
    pub fn view(&mut self, view: &View<'_>) -> Result<Moved, Fault> {
        let line = view.line()?;
        Ok(Moved::of(self.line(line.as_bytes())?))
    }

    /// How large the hierarchy and the mesh shown are.
    pub fn sizes(&self) -> Sizes {
        Sizes {
            shown_nodes: self.inner.shown_nodes(),
            shown_faces: self.inner.shown_faces(),
            nodes: self.inner.nodes(),
            leaves: self.inner.leaves(),
            records: self.inner.records(),
            digits: self.inner.digits(),
        }
    }

    /// The mesh that is shown.
    ///
    /// # Errors
    ///
    /// [`Fault::OutOfMemory`].
    pub fn frame(&mut self) -> Result<Frame, Fault> {
        let mut frame = Frame::default();
        self.frame_into(&mut frame)?;
        Ok(frame)
    }

    /// Puts the mesh that is shown in place of a frame, whose memory is used again.
    ///
    /// # Errors
    ///
    /// [`Fault::OutOfMemory`].
    pub fn frame_into(&mut self, frame: &mut Frame) -> Result<(), Fault> {
        let nodes = self.inner.shown_nodes() as usize;
        let faces = self.inner.shown_faces() as usize;
        make_room(&mut frame.nodes, nodes)?;
        make_room(&mut frame.places, 3 * nodes)?;
        make_room(&mut frame.faces, faces)?;
        make_room(&mut frame.corners, 3 * faces)?;
        make_room(&mut frame.corner_nodes, 3 * faces)?;
        let Frame { nodes, places, faces, corners, corner_nodes } = frame;
        // (there is room for all of it)
        let _ = self.inner.frame(nodes, places, faces, corners, corner_nodes);
        Ok(())
    }

    /// What changed since the marked front, which is the base front at first; the front as it
    /// stands is marked then.
    ///
    /// # Errors
    ///
    /// [`Fault::OutOfMemory`]: nothing is marked then.
    pub fn change(&mut self) -> Result<Change, Fault> {
        let mut change = Change::default();
        self.change_into(&mut change)?;
        Ok(change)
    }

    /// Puts what changed in place of another change, whose memory is used again.
    ///
    /// # Errors
    ///
    /// [`Fault::OutOfMemory`]: nothing is marked then.
    pub fn change_into(&mut self, change: &mut Change) -> Result<(), Fault> {
        match self.fill(change) {
            Ok(sizes) => change.resize(sizes),
            Err(sizes) => {
                change.resize(sizes)?;
                // (nothing moved in between, so there is room now)
                let _ = self.fill(change);
                Ok(())
            }
        }
    }

    fn fill(&mut self, change: &mut Change) -> Result<ChangeSizes, ChangeSizes> {
        let Change { gone_faces, gone_nodes, new_nodes, new_places, put_faces, put_corners } =
            change;
        self.inner.change(gone_faces, gone_nodes, new_nodes, new_places, put_faces, put_corners)
    }

    /// A node, if there is one of this number.
    pub fn node(&self, number: u32) -> Option<Node> {
        if number >= self.inner.nodes() {
            return None;
        }
        let place = self.inner.place(number);
        Some(Node {
            place: [place.x(), place.y(), place.z()],
            splitter: self.inner.splitter(number),
            maker: self.inner.maker(number),
        })
    }

    /// The active node that has a leaf below it, if there is a leaf of this number.
    pub fn ancestor(&self, leaf: u32) -> Option<u32> {
        (leaf < self.inner.leaves()).then(|| self.inner.ancestor(leaf))
    }
}

impl Change {
    /// Makes each list as long as is told.
    fn resize(&mut self, sizes: ChangeSizes) -> Result<(), Fault> {
        let (new_nodes, put_faces) = (sizes.new_nodes as usize, sizes.put_faces as usize);
        make_room(&mut self.gone_faces, sizes.gone_faces as usize)?;
        make_room(&mut self.gone_nodes, sizes.gone_nodes as usize)?;
        make_room(&mut self.new_nodes, new_nodes)?;
        make_room(&mut self.new_places, 3 * new_nodes)?;
        make_room(&mut self.put_faces, put_faces)?;
        make_room(&mut self.put_corners, 3 * put_faces)
    }
}

#[cfg(test)]
mod tests {
    use super::super::{build, Asked};
    use super::*;

    const TENT: &[u8] = b"v 0 0 0\nv 8 0 0\nv 8 8 0\nv 0 8 0\nv 4 4 3\n\
        f 1 2 5\nf 2 3 5\nf 3 4 5\nf 4 1 5\n";

    fn tent() -> Viewer {
        let stream = build(TENT, Asked::default()).unwrap();
        Viewer::open(stream.as_bytes(), u32::MAX).unwrap()
    }

    #[test]
    fn arrays_tell_what_the_texts_do() {
        let (mut one, mut other) = (tent(), tent());
        let (mut frame, mut change) = (Frame::default(), Change::default());
        for record in (0..one.sizes().records).chain([0]) {
            let line = format!("s {record}");
            assert_eq!(one.line(line.as_bytes()), other.line(line.as_bytes()));
            one.frame_into(&mut frame).unwrap();
            assert_eq!(numbers(one.line(b"w").unwrap(), 'v'), with(&frame.nodes, &frame.places));
            one.change_into(&mut change).unwrap();
            let told = other.line(b"d").unwrap();
            assert_eq!(numbers(told, 'v'), with(&change.new_nodes, &change.new_places));
            let corners: Vec<i32> = change.put_corners.iter().map(|node| *node as i32).collect();
            assert_eq!(numbers(told, 'f'), with(&change.put_faces, &corners));
        }
        assert_eq!(one.frame().unwrap().faces.len(), 4);
    }

    fn numbers(text: &[u8], word: char) -> Vec<Vec<i32>> {
        let lines = std::str::from_utf8(text).unwrap().lines();
        let of_word = lines.filter_map(|line| line.strip_prefix(word));
        of_word
            .map(|rest| rest.split_whitespace().map(|it| it.parse().unwrap()).collect())
            .collect()
    }

    fn with(items: &[u32], threes: &[i32]) -> Vec<Vec<i32>> {
        let pairs = items.iter().zip(threes.chunks(3));
        pairs.map(|(item, three)| [&[*item as i32], three].concat()).collect()
    }

    #[test]
    fn nodes_and_leaves_that_are_not_there() {
        let viewer = tent();
        let sizes = viewer.sizes();
        assert_eq!(viewer.node(sizes.nodes), None);
        assert_eq!(viewer.ancestor(sizes.leaves), None);
        assert_eq!(viewer.node(0).unwrap().maker, None);
        assert!(viewer.ancestor(sizes.leaves - 1).is_some());
    }

    #[test]
    fn lines_that_are_refused() {
        let mut viewer = tent();
        assert_eq!(viewer.line(b"no").unwrap_err().to_string(), "fault 30");
        assert_eq!(viewer.line(b"s 99").unwrap_err().to_string(), "fault 31");
        assert!(viewer.view(&View { planes: &[[0; 4]; 7], ..View::default() }).is_err());
    }
}
