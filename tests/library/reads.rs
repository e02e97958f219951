//! The reads of a step of iter, in document 02's words: "one for each block from the given cell's to the found pair's, or to the last when
//! done, and none from capacity or more".

/// The cells of a block: 64 pages of 64.
pub const BLOCK_CELLS: u32 = 64 * 64;

/// `found` is the cell of the pair, if there is one.
pub fn reads_due(capacity: u32, cell: u32, found: Option<u32>) -> u32 {
    if cell >= capacity {
        return 0;
    }
    let last = found.unwrap_or(capacity - 1);
    (0..capacity).step_by(BLOCK_CELLS as usize).filter(|start| cell < start + BLOCK_CELLS && *start <= last).count() as u32
}
