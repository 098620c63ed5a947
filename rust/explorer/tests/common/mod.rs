//! Launches by hand.

use generator::SmallLaunch;

pub const TID: [u8; 4] = [2, 0, 0, 0];
pub const ONE: [u8; 4] = [1, 1, 1, 0];
pub const BARRIER: [u8; 4] = [37, 0, 0, 0];
pub const ELSE: [u8; 4] = [33, 0, 0, 0];
pub const ENDIF: [u8; 4] = [34, 0, 0, 0];
pub const ENDWHILE: [u8; 4] = [36, 0, 0, 0];

pub fn begin_if(a: u8) -> [u8; 4] {
    [32, 0, a, 0]
}

pub fn begin_while(a: u8) -> [u8; 4] {
    [35, 0, a, 0]
}

/// SET Rd = value.
pub fn set(d: u8, value: u16) -> [u8; 4] {
    let [low, high] = value.to_le_bytes();
    [1, d, low, high]
}

/// Groups of so many threads; the own cells of all groups, group 0 first.
pub fn launch_of(
    (groups, threads): (u32, u32),
    rows: &[[u8; 4]],
    cells: &[u32],
    global: &[u32],
) -> SmallLaunch {
    SmallLaunch {
        table: rows.concat(),
        threads,
        groups,
        cells: cells.to_vec(),
        global: global.to_vec(),
    }
}
