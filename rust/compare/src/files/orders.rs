//! The order in which a run places its records (document 02, \[4\]).

use plain::{Area, Used};

/// Records in their order.
pub type Order = Vec<Area>;

/// An order in letters: N node, E edge, A alternative. Spaces are for the reader.
pub fn order(letters: &str) -> Order {
    let record = |letter| match letter {
        'N' => Some(Area::Nodes),
        'E' => Some(Area::Edges),
        'A' => Some(Area::Alternatives),
        ' ' => None,
        other => panic!("`{other}` is no record"),
    };
    letters.chars().filter_map(record).collect()
}

/// How many records of each kind there are.
pub fn count(records: &[Area]) -> Used {
    let of = |area| records.iter().filter(|&&record| record == area).count();
    Used { nodes: of(Area::Nodes), edges: of(Area::Edges), alternatives: of(Area::Alternatives) }
}
