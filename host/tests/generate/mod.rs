//! Meshes, damaged meshes and tables, made from a seed: the same seed gives the same bytes everywhere.

#![allow(dead_code)]

pub mod damage;
pub mod documents;
pub mod given;
pub mod grids;
pub mod large;
pub mod lent;
pub mod plan;
pub mod random;
pub mod special;
pub mod spoil;
pub mod tables;
pub mod words;

pub use random::Random;

use documents::Document;

/// The text of a case: a good mesh, or one damaged in some way.
pub fn text(random: &mut Random) -> Vec<u8> {
    match random.below(40) {
        0..=5 => good(random),
        6..=7 => {
            let mut document = Document::any(random);
            damage::body(random, &mut document);
            document.text(random)
        }
        8..=17 => tokens_damaged(random),
        18..=23 => bytes_damaged(random),
        24..=27 => {
            let mut document = Document::any(random);
            for _ in 0..random.between(1, 2) {
                damage::section(random, &mut document);
            }
            document.text(random)
        }
        28..=29 => special::document(random).text(random),
        30..=31 => special::coordinate(random).text(random),
        32..=35 => {
            let mut document = Document::any(random);
            damage::header(random, &mut document);
            if random.once_in(4) {
                damage::header(random, &mut document);
            }
            document.text(random)
        }
        36..=37 => {
            let mut text = good(random);
            text.truncate(random.below(text.len() + 1));
            text
        }
        38 => damage::soup(random),
        _ => {
            let mut document = special::document(random);
            damage::token(random, &mut document);
            document.text(random)
        }
    }
}

/// A good mesh.
pub fn good(random: &mut Random) -> Vec<u8> {
    Document::any(random).text(random)
}

fn tokens_damaged(random: &mut Random) -> Vec<u8> {
    let mut document = Document::any(random);
    for _ in 0..random.between(1, 3) {
        damage::token(random, &mut document);
    }
    document.text(random)
}

fn bytes_damaged(random: &mut Random) -> Vec<u8> {
    let mut text = good(random);
    for _ in 0..random.between(1, 3) {
        damage::byte(random, &mut text);
    }
    text
}
