//! What a search keeps of every box that it checked.

/// A box: the t, u, v index of a closed grid cell.
pub type GridBox = [u32; 3];

/// Where F lies over all of a box, against the separation of an axis.
#[derive(Clone, Copy, Debug, PartialEq, Eq)]
pub enum Side {
    /// Below minus the separation.
    Below = 0,
    /// Above the separation.
    Above = 1,
}

/// An axis (0 x, 1 y, 2 z) on which a box misses, and the side.
#[derive(Clone, Copy, Debug, PartialEq, Eq)]
pub struct Miss {
    pub axis: usize,
    pub side: Side,
}

/// A box that was checked.
#[derive(Clone, Copy, Debug, PartialEq, Eq)]
pub struct Checked {
    pub grid_box: GridBox,
    /// On the first of x, y, z that misses; nothing for a survivor.
    pub missed: Option<Miss>,
}

/// A level that the search came to, its boxes as far as they were checked.
#[derive(Clone, Debug, PartialEq, Eq)]
pub struct LoggedLevel {
    pub depths: [u32; 3],
    pub checked: Vec<Checked>,
}
