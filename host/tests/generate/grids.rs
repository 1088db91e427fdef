//! Meshes as numbers: sensible ones made from their cells, and ones that mean nothing.

use std::collections::HashMap;

use super::words::{self, Token};
use super::Random;

pub struct Face {
    pub nodes: Vec<u32>,
    pub right: u32,
    pub left: u32,
}

pub struct Model {
    pub dimension: u32,
    pub points: Vec<Vec<Token>>,
    pub faces: Vec<Face>,
    pub cells: Vec<u32>,
}

/// A cell: its element, and its nodes counted from 1.
pub type Cell = (u32, Vec<u32>);

/// The faces of an element, by places among its nodes.
fn sides(element: u32) -> &'static [&'static [usize]] {
    match element {
        1 => &[&[0, 1], &[1, 2], &[2, 0]],
        2 => &[&[0, 1, 2], &[0, 3, 1], &[1, 3, 2], &[0, 2, 3]],
        3 => &[&[0, 1], &[1, 2], &[2, 3], &[3, 0]],
        4 => &[&[0, 1, 2, 3], &[4, 7, 6, 5], &[0, 4, 5, 1], &[1, 5, 6, 2], &[2, 6, 7, 3], &[3, 7, 4, 0]],
        5 => &[&[0, 1, 2, 3], &[0, 4, 1], &[1, 4, 2], &[2, 4, 3], &[3, 4, 0]],
        _ => &[&[0, 1, 2], &[3, 5, 4], &[0, 3, 4, 1], &[1, 4, 5, 2], &[2, 5, 3, 0]],
    }
}

/// The faces between these cells and around them: inner ones first.
fn faces_of(cells: &[Cell]) -> Vec<Face> {
    let mut faces: Vec<Face> = Vec::new();
    let mut known: HashMap<Vec<u32>, usize> = HashMap::new();
    for (place, (element, nodes)) in cells.iter().enumerate() {
        let cell = place as u32 + 1;
        for side in sides(*element) {
            let nodes: Vec<u32> = side.iter().map(|&place| nodes[place]).collect();
            let mut key = nodes.clone();
            key.sort_unstable();
            match known.get(&key) {
                Some(&face) => faces[face].left = cell,
                None => {
                    known.insert(key, faces.len());
                    faces.push(Face { nodes, right: cell, left: 0 });
                }
            }
        }
    }
    faces.sort_by_key(|face| face.left == 0);
    faces
}

/// Quadrilaterals (element 3), triangles (1), hexahedra (4) or tetrahedra (2): `x` by `y` by `z` boxes, `z` being 0 in a flat mesh.
pub fn boxes(element: u32, [x, y, z]: [usize; 3]) -> Vec<Cell> {
    let node = |i: usize, j: usize, k: usize| (1 + i + (x + 1) * (j + (y + 1) * k)) as u32;
    let mut cells = Vec::new();
    for k in 0..z.max(1) {
        for j in 0..y {
            for i in 0..x {
                let at = |corner: usize| node(i + (corner & 1), j + (corner >> 1 & 1), k + (corner >> 2));
                match element {
                    3 => cells.push((3, [0, 1, 3, 2].map(at).to_vec())),
                    1 => cells.extend([[0, 1, 3], [0, 3, 2]].map(|corners| (1, corners.map(at).to_vec()))),
                    4 => cells.push((4, [0, 1, 3, 2, 4, 5, 7, 6].map(at).to_vec())),
                    _ => cells.extend(PATHS.map(|[a, b]| (2, [0, a, b, 7].map(at).to_vec()))),
                }
            }
        }
    }
    cells
}

/// The six ways along a box's edges from corner 0 to corner 7: the two corners between.
const PATHS: [[usize; 2]; 6] = [[1, 3], [1, 5], [2, 3], [2, 6], [4, 5], [4, 6]];

/// How the coordinates of a grid are written.
#[derive(Clone, Copy)]
pub struct Digits {
    pub places: usize,
    pub exponent: bool,
}

/// A grid of boxes with coordinates.
pub fn grid(element: u32, size: [usize; 3], digits: Digits) -> Model {
    let cells = boxes(element, size);
    let dimension = if size[2] == 0 { 2 } else { 3 };
    let [x, y, z] = size;
    let mut points = Vec::new();
    for k in 0..=z {
        for j in 0..=y {
            for i in 0..=x {
                let place = [i, j, k].into_iter().zip(size).take(dimension as usize);
                points.push(place.map(|(at, of)| written(at as f64 / of as f64 - 0.25, digits)).collect());
            }
        }
    }
    Model { dimension, points, faces: faces_of(&cells), cells: cells.into_iter().map(|cell| cell.0).collect() }
}

/// As a mesher writes it: with an exponent of two digits, or with none.
fn written(value: f64, digits: Digits) -> Token {
    let places = digits.places;
    if !digits.exponent {
        return format!("{value:.places$}").into_bytes();
    }
    let text = format!("{value:.places$e}");
    let (mantissa, exponent) = text.split_once('e').expect("written with an exponent");
    let exponent: i32 = exponent.parse().expect("an exponent is a number");
    let sign = if exponent < 0 { '-' } else { '+' };
    format!("{mantissa}e{sign}{:02}", exponent.abs()).into_bytes()
}

impl Model {
    /// A small mesh of any sort: sensible, or any numbers at all.
    pub fn any(random: &mut Random) -> Model {
        match random.below(4) {
            0 | 1 => Model::sensible(random),
            _ => Model::senseless(random),
        }
    }

    pub fn sensible(random: &mut Random) -> Model {
        let cells: Vec<Cell> = match random.below(9) {
            0 => boxes(3, [random.between(1, 3), random.between(1, 2), 0]),
            1 => boxes(1, [random.between(1, 2), random.between(1, 2), 0]),
            2 => boxes(4, [random.between(1, 2), 1, 1]),
            3 => boxes(2, [1, 1, 1]),
            4 => vec![(6, vec![1, 2, 3, 4, 5, 6])],
            5 => vec![(5, vec![1, 2, 3, 4, 5])],
            6 => vec![(3, vec![1, 2, 3, 4]), (1, vec![2, 5, 3])],
            7 => vec![(4, vec![1, 2, 3, 4, 5, 6, 7, 8]), (5, vec![5, 6, 7, 8, 9]), (2, vec![5, 6, 9, 10])],
            _ => vec![(2, vec![1, 2, 3, 4])],
        };
        let dimension = if matches!(cells[0].0, 1 | 3) { 2 } else { 3 };
        let nodes = cells.iter().flat_map(|cell| &cell.1).copied().max().unwrap_or(0);
        let mut model = Model {
            dimension,
            points: points(random, nodes as usize, dimension),
            faces: faces_of(&cells),
            cells: cells.into_iter().map(|cell| cell.0).collect(),
        };
        if random.once_in(6) {
            model.cells.clear();
            model.faces.iter_mut().for_each(|face| (face.right, face.left) = (0, 0));
        } else if random.once_in(2) {
            model.renumber(random);
        }
        model
    }

    fn senseless(random: &mut Random) -> Model {
        let dimension = random.pick(&[2, 3]);
        let total = |random: &mut Random| random.pick(&[0, 1, 2, 3, 5, 8, 12]);
        let (nodes, faces, cells) = (total(random), total(random), total(random));
        let wild = random.once_in(2);
        let count = random.pick(&[0, 2, 3, 4]);
        let faces = (0..faces)
            .map(|_| {
                let count = if count == 0 { random.between(2, 4) } else { count };
                let nodes = (0..count).map(|_| near(random, nodes, wild)).collect();
                Face { nodes, right: near(random, cells, wild), left: near(random, cells, wild) }
            })
            .collect();
        let element = random.below(7) as u32;
        let elements = |random: &mut Random| if element == 0 { random.between(1, 6) as u32 } else { element };
        let cells = (0..cells).map(|_| elements(random)).collect();
        Model { dimension, points: points(random, nodes, dimension), faces, cells }
    }

    /// Numbers nodes, faces and cells anew, at random.
    pub fn renumber(&mut self, random: &mut Random) {
        let mut order = |count: usize| {
            let mut order: Vec<usize> = (0..count).collect();
            random.shuffle(&mut order);
            order
        };
        let (nodes, cells) = (order(self.points.len()), order(self.cells.len()));
        let mut points = vec![Vec::new(); nodes.len()];
        for (point, &place) in self.points.drain(..).zip(&nodes) {
            points[place] = point;
        }
        self.points = points;
        let mut elements = vec![0; cells.len()];
        for (element, &place) in self.cells.iter().zip(&cells) {
            elements[place] = *element;
        }
        self.cells = elements;
        for face in &mut self.faces {
            face.nodes.iter_mut().for_each(|node| *node = nodes[*node as usize - 1] as u32 + 1);
            for side in [&mut face.right, &mut face.left] {
                if *side > 0 {
                    *side = cells[*side as usize - 1] as u32 + 1;
                }
            }
        }
        let inner = self.faces.iter().filter(|face| face.left != 0).count();
        let (within, around) = self.faces.split_at_mut(inner);
        random.shuffle(within);
        random.shuffle(around);
    }
}

fn points(random: &mut Random, count: usize, dimension: u32) -> Vec<Vec<Token>> {
    (0..count).map(|_| (0..dimension).map(|_| words::coordinate(random)).collect()).collect()
}

/// A number from 1 to `total`; a wild one may be 0, above it, or the largest.
fn near(random: &mut Random, total: usize, wild: bool) -> u32 {
    let inside = random.between(1, total.max(1)) as u32;
    let total = total as u32;
    if wild {
        random.pick(&[0, total, total + 1, u32::MAX, inside, inside, inside, inside])
    } else {
        inside
    }
}
