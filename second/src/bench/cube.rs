//! Level 0 in whole units, before anything is prepared: at the cube's corners t, u, v are 0 or 1.

use super::motion::Points;

/// True where the cube misses: z first, then x, then y.
#[inline(always)]
pub fn misses(is_vertex_face: bool, separations: &[u32; 3], points: &impl Points) -> bool {
    misses_on(2, is_vertex_face, separations, points)
        || misses_on(0, is_vertex_face, separations, points)
        || misses_on(1, is_vertex_face, separations, points)
}

#[inline(always)]
fn misses_on(axis: usize, is_vertex_face: bool, d: &[u32; 3], points: &impl Points) -> bool {
    let (mut least, mut greatest) = (i32::MAX, i32::MIN);
    for end in 0..2 {
        let [a, b, c] = points.kernel(is_vertex_face, end, axis);
        least = least.min(a + b.min(0) + c.min(0));
        greatest = greatest.max(a + b.max(0) + c.max(0));
    }
    let d = d[axis] as i32;
    least > d || greatest < -d
}
