//! What the numbers in a mesh file are called.

/// What a section of this id lists: `nodes`, `cells` or `faces`.
pub fn section_name(id: u32) -> &'static str {
    match id {
        10 => "nodes",
        12 => "cells",
        13 => "faces",
        _ => "section",
    }
}

/// The name of a zone's type, for the section it stands in. A face type above 1000 is of a non-conformal interface and bears the name of the type it stands for.
pub fn type_name(section: u32, zone_type: u32) -> &'static str {
    match section {
        10 => node_type(zone_type),
        12 => cell_type(zone_type),
        13 if zone_type > 1000 => face_type(zone_type - 1000),
        13 => face_type(zone_type),
        _ => "unknown",
    }
}

/// [`type_name`], and for types above 1000 that the zone is of a non-conformal interface.
pub fn type_text(section: u32, zone_type: u32) -> String {
    let name = type_name(section, zone_type);
    match section == 13 && zone_type > 1000 {
        true => format!("{name} (non-conformal)"),
        false => name.to_string(),
    }
}

/// Whether sections of this id may have this type.
pub fn is_listed(section: u32, zone_type: u32) -> bool {
    type_name(section, zone_type) != "unknown"
}

/// The type of this name in sections of this id, hyphens and blanks being the same: `pressure-outlet` is 5 for faces.
pub fn type_number(section: u32, name: &str) -> Option<u32> {
    let wanted = name.replace('-', " ");
    (0..=37).find(|&number| is_listed(section, number) && type_name(section, number).replace('-', " ") == wanted)
}

/// The element of this name.
pub fn element_number(name: &str) -> Option<u32> {
    (1..=6).find(|&element| element_name(element) == name)
}

fn node_type(zone_type: u32) -> &'static str {
    match zone_type {
        0 => "virtual nodes",
        1 => "any nodes",
        2 => "boundary nodes",
        _ => "unknown",
    }
}

fn cell_type(zone_type: u32) -> &'static str {
    match zone_type {
        0 => "dead",
        1 => "active",
        32 => "inactive",
        _ => "unknown",
    }
}

fn face_type(zone_type: u32) -> &'static str {
    match zone_type {
        2 => "interior",
        3 => "wall",
        4 => "pressure inlet",
        5 => "pressure outlet",
        7 => "symmetry",
        8 => "periodic shadow",
        9 => "pressure far-field",
        10 => "velocity inlet",
        12 => "periodic",
        14 => "fan",
        20 => "mass-flow inlet",
        24 => "interface",
        31 => "parent",
        36 => "outflow",
        37 => "axis",
        _ => "unknown",
    }
}

/// The name of a cell's element.
pub fn element_name(element: u32) -> &'static str {
    match element {
        1 => "triangle",
        2 => "tetrahedron",
        3 => "quadrilateral",
        4 => "hexahedron",
        5 => "pyramid",
        6 => "wedge",
        _ => "unknown element",
    }
}

/// How many faces a cell of this element has, `None` for an unknown element.
pub fn element_faces(element: u32) -> Option<u32> {
    match element {
        1 => Some(3),
        2 | 3 => Some(4),
        4 => Some(6),
        5 | 6 => Some(5),
        _ => None,
    }
}

/// A number as the answers and as the file write it: `26 (hex 1a)`, or `3` alone where both are the same.
pub fn both_bases(number: u32) -> String {
    match number {
        0..=9 => number.to_string(),
        _ => format!("{number} (hex {number:x})"),
    }
}

/// `1 face`, `2 faces`.
pub fn counted(number: usize, one: &str) -> String {
    match number {
        1 => format!("1 {one}"),
        _ => format!("{number} {one}s"),
    }
}

#[cfg(test)]
mod tests {
    use super::*;

    #[test]
    fn types_by_section() {
        assert_eq!(type_name(13, 36), "outflow");
        assert_eq!(type_name(13, 24), "interface");
        assert_eq!(type_name(13, 1003), "wall");
        assert_eq!(type_text(13, 1003), "wall (non-conformal)");
        assert_eq!(type_text(13, 3), "wall");
        assert_eq!(type_name(13, 1000), "unknown");
        assert_eq!(type_name(13, 54), "unknown");
        assert_eq!(type_name(12, 32), "inactive");
        assert_eq!(type_name(10, 2), "boundary nodes");
        assert_eq!(type_name(0, 2), "unknown");
    }

    #[test]
    fn numbers_by_name() {
        for (section, listed) in [(10, 3), (12, 3), (13, 15)] {
            let all: Vec<u32> = (0..1000).filter(|&number| is_listed(section, number)).collect();
            assert_eq!(all.len(), listed);
            assert!(all.iter().all(|&number| type_number(section, type_name(section, number)) == Some(number)));
        }
        assert_eq!(type_number(13, "pressure-outlet"), Some(5));
        assert_eq!(type_number(13, "mass flow inlet"), Some(20));
        assert_eq!((type_number(12, "wall"), type_number(13, "unknown")), (None, None));
        assert!((1..=6).all(|element| element_number(element_name(element)) == Some(element)));
        assert_eq!(element_number("unknown element"), None);
    }

    #[test]
    fn numbers_in_both_bases() {
        assert_eq!(both_bases(9), "9");
        assert_eq!(both_bases(26), "26 (hex 1a)");
        assert_eq!(counted(1, "cell"), "1 cell");
        assert_eq!(counted(0, "cell"), "0 cells");
    }
}
