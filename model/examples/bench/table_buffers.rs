//! The buffers that a pattern's tables need.

use ruffarmoire_model::calls::TableLengths;

#[derive(Clone, PartialEq)]
pub struct TableBuffers {
    pub order: Vec<i16>,
    pub delta2: Vec<u16>,
    pub delta1: Vec<u16>,
    pub delta3: Vec<u16>,
}

impl TableBuffers {
    pub fn needed(m: usize) -> TableBuffers {
        let lengths = TableLengths::needed(m);
        TableBuffers {
            order: vec![0; lengths.order],
            delta2: vec![0; lengths.delta2],
            delta1: vec![0; lengths.delta1],
            delta3: vec![0; lengths.delta3],
        }
    }
}
