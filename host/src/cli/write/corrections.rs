//! Corrections of a mesh, one to a line.

use super::line::{words, Bad, Word};
use super::zones;
use ravneket::names::{both_bases, element_name, element_number};
use ravneket::{Decimal, Mesh, Side};

/// What a correction may be, for people.
const FORMS: [(&str, &str); 5] = [
    ("node", "`node N x VALUE`, or y or z"),
    ("face", "`face N right CELL`, `face N left CELL`, `face N node POSITION NODE` or `face N nodes NODE...`"),
    ("cell", "`cell N element ELEMENT`"),
    ("zone", "`zone ID type TYPE`, `zone ID element ELEMENT` or `zone ID id NEW`"),
    ("record", "`record PLACE type TYPE`, `record PLACE element ELEMENT` or `record PLACE id NEW`"),
];

/// A correction that was made: the number of its line, and what was changed.
#[derive(Debug, PartialEq, Eq)]
pub struct Change {
    pub line: usize,
    pub what: String,
}

/// Makes all corrections of a file, from the first line to the last. If any is bad, all bad ones are answered and the mesh is of no use any more.
pub fn correct(text: &[u8], mesh: &mut Mesh) -> Result<Vec<Change>, Vec<Bad>> {
    let (mut changes, mut bad) = (Vec::new(), Vec::new());
    let mut start = 0;
    for (place, line) in text.split(|&byte| byte == b'\n').enumerate() {
        match words(line, start).and_then(|words| one(&words, mesh)) {
            Ok(what) => changes.extend(what.map(|what| Change { line: place + 1, what })),
            Err(wrong) => bad.push(wrong),
        }
        start += line.len() + 1;
    }
    if bad.is_empty() {
        Ok(changes)
    } else {
        Err(bad)
    }
}

/// Makes one correction and says what it changed; nothing for no words.
fn one(words: &[Word], mesh: &mut Mesh) -> Result<Option<String>, Bad> {
    let Some((what, rest)) = words.split_first() else { return Ok(None) };
    let Some((_, form)) = FORMS.iter().find(|form| form.0 == what.text) else {
        return Err(what.bad("a correction starts with node, face, cell, zone or record"));
    };
    let whole = || Bad { words: what.at..words[words.len() - 1].range().end, reason: format!("this should be {form}") };
    let [index, field, values @ ..] = rest else { return Err(whole()) };
    let done = match (what.text, field.text, values) {
        ("node", "x" | "y" | "z", [value]) => coordinate(mesh, index, field, value),
        ("face", "right", [cell]) => side(mesh, index, Side::Right, cell),
        ("face", "left", [cell]) => side(mesh, index, Side::Left, cell),
        ("face", "node", [position, node]) => face_node(mesh, index, position, node),
        ("face", "nodes", [_, ..]) => face_nodes(mesh, index, values),
        ("cell", "element", [element]) => cell_element(mesh, index, element),
        ("zone" | "record", "type", [_, ..]) | ("zone" | "record", "element" | "id", [_]) => {
            let place =
                if what.text == "zone" { zones::by_id(mesh, index) } else { index.number().map(|at| at as usize) };
            place.and_then(|place| zones::correct(mesh, index, place, field, values))
        }
        _ => Err(whole()),
    };
    done.map(Some)
}

fn coordinate(mesh: &mut Mesh, index: &Word, axis: &Word, value: &Word) -> Result<String, Bad> {
    let node = index.number()?;
    let exact: Decimal = value.text.parse().map_err(|reason| value.bad(format!("this is {reason}")))?;
    let place = usize::from(axis.text.as_bytes()[0] - b'x');
    if place >= mesh.dimension() as usize {
        return Err(axis.bad("the mesh is flat (2D) and has no z"));
    }
    let before = mesh.set_coordinate(node, place, exact).map_err(|error| index.bad(error.to_string()))?;
    Ok(format!("node {}: {} was {before}, is {exact}", both_bases(node), axis.text))
}

fn side(mesh: &mut Mesh, index: &Word, side: Side, cell: &Word) -> Result<String, Bad> {
    let (face, cell) = (index.number()?, cell.number()?);
    let before = mesh.set_side(face, side, cell).map_err(|error| index.bad(error.to_string()))?;
    let [face, before, cell] = [face, before, cell].map(both_bases);
    Ok(format!("face {face}: the {} cell was {before}, is {cell}", side.name()))
}

fn face_node(mesh: &mut Mesh, index: &Word, position: &Word, node: &Word) -> Result<String, Bad> {
    let (face, place, node) = (index.number()?, position.number()?, node.number()?);
    let blamed = if mesh.face(face).is_some() { position } else { index };
    let before = mesh.set_face_node(face, place as usize, node).map_err(|error| blamed.bad(error.to_string()))?;
    let [face, before, node] = [face, before, node].map(both_bases);
    Ok(format!("face {face}: the node at position {place} was {before}, is {node}"))
}

fn face_nodes(mesh: &mut Mesh, index: &Word, nodes: &[Word]) -> Result<String, Bad> {
    let face = index.number()?;
    let nodes = nodes.iter().map(|node| node.number()).collect::<Result<Vec<u32>, Bad>>()?;
    let before = mesh.set_face_nodes(face, &nodes).map_err(|error| index.bad(error.to_string()))?;
    let told = |nodes: &[u32]| nodes.iter().copied().map(both_bases).collect::<Vec<_>>().join(", ");
    Ok(format!("face {}: the nodes were {}, are {}", both_bases(face), told(&before), told(&nodes)))
}

fn cell_element(mesh: &mut Mesh, index: &Word, element: &Word) -> Result<String, Bad> {
    let (cell, element) = (index.number()?, element_of(element)?);
    let before = mesh.set_element(cell, element).map_err(|error| index.bad(error.to_string()))?;
    let [before, after] = [before, element].map(element_text);
    Ok(format!("cell {}: the element was {before}, is {after}", both_bases(cell)))
}

/// An element by its number or its name; `mixed` is 0.
pub fn element_of(word: &Word) -> Result<u32, Bad> {
    match element_number(word.text) {
        Some(element) => Ok(element),
        None if word.text == "mixed" => Ok(0),
        None if word.text.starts_with(|first: char| first.is_ascii_digit()) => word.number(),
        None => {
            let names: Vec<&str> = (1..=6).map(element_name).collect();
            Err(word.bad(format!("elements are 1 to 6, or {}; 0 or mixed for a zone", names.join(", "))))
        }
    }
}

/// `4, hexahedron`.
pub fn element_text(element: u32) -> String {
    match element {
        0 => "0, mixed".to_string(),
        _ => format!("{}, {}", both_bases(element), element_name(element)),
    }
}
