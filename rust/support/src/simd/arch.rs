//! Arrays: big-endian machines, and those of which no vectors are here.

pub type Quad = [u32; 4];

#[inline(always)]
pub fn load(x: &[u32; 4]) -> Quad {
    *x
}

#[inline(always)]
pub fn store(x: Quad, to: &mut [u32; 4]) {
    *to = x;
}

#[inline(always)]
pub fn plus(x: Quad, y: Quad) -> Quad {
    core::array::from_fn(|k| x[k].wrapping_add(y[k]))
}

#[inline(always)]
pub fn xor(x: Quad, y: Quad) -> Quad {
    core::array::from_fn(|k| x[k] ^ y[k])
}

#[inline(always)]
pub fn or(x: Quad, y: Quad) -> Quad {
    core::array::from_fn(|k| x[k] | y[k])
}

#[inline(always)]
pub fn xor_rotated(x: Quad, y: Quad, bits: u32) -> Quad {
    core::array::from_fn(|k| x[k] ^ y[k].rotate_left(bits))
}

#[inline(always)]
pub fn turned<const K: usize>(x: Quad) -> Quad {
    core::array::from_fn(|k| x[(k + K) % 4])
}

#[inline(always)]
pub fn kept(x: Quad) -> Quad {
    x
}

#[inline(always)]
pub fn tied(x: Quad, y: Quad) -> (Quad, Quad) {
    (x, y)
}

pub fn level() -> u8 {
    0
}
