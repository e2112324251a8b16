//! Types that the built files name and that were not published or are left behind.

use crate::InputData;

/// A slot is known by its number alone.
#[derive(Debug, Clone, PartialEq, Eq)]
pub struct SlotData;

/// The seating part's flow graph, which is left behind.
#[derive(Debug, Clone)]
pub struct MipFlowStaticData;

impl MipFlowStaticData {
    pub fn new(_input_data: &InputData) -> Self {
        Self
    }
}
