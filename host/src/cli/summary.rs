//! Faults counted by kind and by zone.

use ravneket::{Audit, Fault, Mesh};

/// A kind of fault and how many there are.
pub struct Kind {
    pub total: u64,
    pub number: u8,
    pub name: &'static str,
    pub advice: &'static str,
}

/// How many faults of each kind and in each zone.
pub struct Summary {
    /// The kinds that occur.
    pub kinds: Vec<Kind>,
    /// For each zone of the mesh, in the order of the file.
    pub zones: Vec<u64>,
}

impl Summary {
    pub fn of(mesh: &Mesh, audit: &Audit) -> Summary {
        let mut zones = vec![0; mesh.zones().len()];
        let all = Fault::kinds().map(|(number, name, advice)| Kind { total: 0, number, name, advice });
        let mut kinds: Vec<Kind> = all.collect();
        for fault in &audit.faults {
            kinds[usize::from(fault.kind()) - 1].total += 1;
            if let Some((place, _)) = fault.zone(mesh) {
                zones[place] += 1;
            }
        }
        kinds.retain(|kind| kind.total > 0);
        Summary { kinds, zones }
    }
}
