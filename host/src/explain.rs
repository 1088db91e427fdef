//! What a fault is, told with the mesh at hand: the values that are wrong and the zone they stand in.

use crate::fault::{Fault, Side};
use crate::mesh::{Dimension, Face, Mesh, Zone};
use crate::names::{both_bases, counted, element_faces, element_name, type_text};

impl Fault {
    /// One line for a mesher, with the values found and the zone. Numbers above 9 are given in hexadecimal too, as the file has them.
    pub fn explain(&self, mesh: &Mesh) -> String {
        let face = self.face().and_then(|index| Some((index, mesh.face(index)?)));
        if let Some((index, face)) = face {
            let zone = zone_text(mesh, 13, index);
            return format!("face {}: {}{zone}", both_bases(index), self.of_face(mesh, &face));
        }
        match self.cell() {
            Some(index) => {
                let zone = zone_text(mesh, 12, index);
                format!("cell {}: {}{zone}", both_bases(index), self.of_cell(mesh, index))
            }
            None => self.to_string(),
        }
    }

    /// The zone of `mesh` that the face or cell is in, and its place among the zones.
    pub fn zone(&self, mesh: &Mesh) -> Option<(usize, Zone)> {
        match (self.face(), self.cell()) {
            (Some(face), _) => mesh.zone_of(13, face),
            (_, Some(cell)) => mesh.zone_of(12, cell),
            _ => None,
        }
    }

    fn of_face(&self, mesh: &Mesh, face: &Face) -> String {
        match *self {
            Fault::NodeCount { .. } => node_count(mesh, face),
            Fault::NodeOutside { position, .. } => node_outside(mesh, face, position),
            Fault::NodeTwice { position, .. } => node_twice(face, position),
            Fault::CellBeyond { side, .. } => cell_beyond(mesh, face, side),
            Fault::SameCell { .. } => format!("cell {} is on both sides", both_bases(face.right)),
            Fault::InteriorOpen { .. } => interior_open(face),
            _ => "there is no cell on either side".to_string(),
        }
    }

    fn of_cell(&self, mesh: &Mesh, index: u32) -> String {
        let element = mesh.cell(index).map_or(0, |cell| cell.element);
        let name = element_name(element);
        match (self, element_faces(element)) {
            (Fault::FaceCount { count, .. }, Some(due)) => {
                let sides = counted(*count as usize, "face side");
                let names = if *count == 1 { "names" } else { "name" };
                format!("{sides} {names} it, but element {element}, a {name}, has {due} faces")
            }
            _ => format!("element {element}, a {name}, does not fit a {}", mesh_word(mesh)),
        }
    }
}

fn mesh_word(mesh: &Mesh) -> &'static str {
    match mesh.dimension() {
        Dimension::Two => "flat mesh (2D)",
        Dimension::Three => "solid mesh (3D)",
    }
}

fn zone_text(mesh: &Mesh, section: u32, index: u32) -> String {
    match mesh.zone_of(section, index) {
        Some((_, zone)) => format!("; zone {}, {}", both_bases(zone.zone), type_text(section, zone.zone_type)),
        None => String::new(),
    }
}

fn node_count(mesh: &Mesh, face: &Face) -> String {
    let due = match mesh.dimension() {
        Dimension::Two => "2",
        Dimension::Three => "3 or 4",
    };
    format!("it has {}, but a face of a {} has {due}", counted(face.count as usize, "node"), mesh_word(mesh))
}

/// 0 where there is none, which happens only with another mesh than the audited one.
fn node_at(face: &Face, position: u8) -> u32 {
    face.nodes.get(usize::from(position)).copied().unwrap_or(0)
}

fn node_outside(mesh: &Mesh, face: &Face, position: u8) -> String {
    let total = counted(mesh.node_count(), "node");
    match node_at(face, position) {
        0 => format!("the node at position {position} is 0, but nodes count from 1"),
        node => format!("the node at position {position} is {}, but the mesh has {total}", both_bases(node)),
    }
}

fn node_twice(face: &Face, position: u8) -> String {
    let node = node_at(face, position);
    let earlier = face.nodes.iter().position(|&other| other == node).unwrap_or(0);
    format!("node {} stands at position {earlier} and again at position {position}", both_bases(node))
}

fn cell_beyond(mesh: &Mesh, face: &Face, side: Side) -> String {
    let cell = match side {
        Side::Right => face.right,
        Side::Left => face.left,
    };
    let total = counted(mesh.cell_count(), "cell");
    format!("the {} cell is {}, but the mesh has {total}", side.name(), both_bases(cell))
}

fn interior_open(face: &Face) -> String {
    let open = match (face.right, face.left) {
        (0, 0) => "either side",
        (0, _) => "the right",
        _ => "the left",
    };
    format!("its type is {}, interior, but it has no cell on {open}", both_bases(face.zone_type))
}
