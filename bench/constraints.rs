// What both baselines share: the constraints of a record file, revised by plain loops, and the closure of a node.
pub const RECORD: usize = 136;

pub fn word(b: &[u8], at: usize) -> u32 {
    u32::from_le_bytes([b[at], b[at + 1], b[at + 2], b[at + 3]])
}

pub fn half(b: &[u8], at: usize) -> u32 {
    u16::from_le_bytes([b[at], b[at + 1]]) as u32
}

pub struct Table {
    pub x: usize,
    pub y: usize,
    pub rows: [u32; 32],
}

pub struct Sum {
    pub r: i64,
    pub c: [i64; 32],
}

pub fn revise_table(t: &Table, w: &mut [u32; 32]) -> u32 {
    let (wx, wy) = (w[t.x], w[t.y]);
    let (mut kept, mut any, mut left) = (0, 0, wx);
    while left != 0 {
        let a = left.trailing_zeros() as usize;
        left &= left - 1;
        let row = t.rows[a] & wy;
        if row != 0 {
            kept |= 1 << a;
            any |= row;
        }
    }
    w[t.x] = kept;
    w[t.y] = any;
    ((kept != wx) as u32) << t.x | ((any != wy) as u32) << t.y
}

pub fn most(c: i64, w: u32) -> i64 {
    if c < 0 { c * w.trailing_zeros() as i64 } else { c * (31 - w.leading_zeros() as i64) }
}

pub fn revise_sum(s: &Sum, n: usize, w: &mut [u32; 32]) -> u32 {
    let total: i64 = (0..n).map(|i| most(s.c[i], w[i])).sum();
    let mut changed = 0;
    for i in 0..n {
        let need = s.r - (total - most(s.c[i], w[i]));
        let (mut kept, mut left) = (w[i], w[i]);
        while left != 0 {
            let v = left.trailing_zeros();
            left &= left - 1;
            if s.c[i] * (v as i64) < need {
                kept &= !(1 << v);
            }
        }
        if kept != w[i] {
            w[i] = kept;
            changed |= 1 << i;
        }
    }
    changed
}

// Every constraint is revised at first, or only those that touch a moved variable.
pub fn close(n: usize, touch: &[u32], moved: Option<u32>, mut revise: impl FnMut(usize, &mut [u32; 32]) -> u32, w: &mut [u32; 32]) {
    let (mut first, mut changed) = (moved.is_none(), moved.unwrap_or(0));
    loop {
        let todo = std::mem::replace(&mut changed, 0);
        for k in 0..touch.len() {
            if first || touch[k] & (todo | changed) != 0 {
                let d = revise(k, w);
                if d != 0 && w[..n].iter().any(|&x| x == 0) {
                    *w = [0; 32];
                    return;
                }
                changed |= d;
            }
        }
        if changed == 0 {
            return;
        }
        first = false;
    }
}
