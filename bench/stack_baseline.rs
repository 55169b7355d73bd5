// A straightforward Rust program with the same output as `replay copying:32` for lawful files and scripts of lawful calls:
// held nodes are copies in a vector, a step closes from the changed variable. What spaces.sh compares with.
use std::io::{Read, Write};
#[path = "constraints.rs"]
mod constraints;
use constraints::*;

type Node = [u32; 32];

struct Space<F: Fn(usize, &mut Node) -> u32> {
    n: usize,
    touch: Vec<u32>,
    revise: F,
    root: Node,
    now: Node,
    held: Vec<Node>,
    allowance: u64,
}

impl<F: Fn(usize, &mut Node) -> u32> Space<F> {
    fn choice(&self) -> Option<(usize, u32)> {
        if self.now[..self.n].iter().any(|&w| w == 0) {
            return None;
        }
        let x = (0..self.n).filter(|&i| self.now[i].count_ones() > 1).min_by_key(|&i| self.now[i].count_ones())?;
        Some((x, self.now[x].trailing_zeros()))
    }

    fn step(&mut self, a: u32) -> bool {
        let Some((x, v)) = self.choice() else { return false };
        self.now[x] = if a == 0 { 1 << v } else { self.now[x] & !(1 << v) };
        let revise = &self.revise;
        close(self.n, &self.touch, Some(1 << x), |k, w| revise(k, w), &mut self.now);
        true
    }

    fn call(&mut self, line: &str, bound: impl Fn(&Node) -> String) -> String {
        let failed = self.now[..self.n].iter().any(|&w| w == 0);
        match line {
            "status" if failed => "failed".into(),
            "status" => self.choice().map_or("solved".into(), |(x, v)| format!("choice {x} {v}")),
            "bound" if failed => "refused 15".into(),
            "bound" => bound(&self.now),
            "mark" if self.held.len() == 32 => "refused 16 layer 1".into(),
            "mark" => { self.held.push(self.now); "done".into() }
            "restore" => self.held.last().copied().map_or("refused 17".into(), |w| { self.now = w; "done".into() }),
            "forget" => self.held.pop().map_or("refused 17".into(), |_| "done".into()),
            "reset" => { self.now = self.root; self.held.clear(); "done".into() }
            "commit 0" | "commit 1" => {
                if self.choice().is_some() && self.allowance == 0 {
                    return "refused 14 layer 0".into();
                }
                if self.step((line == "commit 1") as u32) { self.allowance -= 1; "done".into() } else { "refused 12".into() }
            }
            _ => "bad line".into(),
        }
    }
}

fn main() {
    let script = std::fs::read_to_string(std::env::args().nth(1).unwrap()).unwrap();
    let mut b = Vec::new();
    std::io::stdin().take(401 * RECORD as u64).read_to_end(&mut b).unwrap();
    let records: Vec<&[u8]> = b.chunks_exact(RECORD).collect();
    let mut out = String::new();
    if b[0] == 3 {
        let n = b[1] as usize;
        let c = |r: &[u8]| { let mut c = [0; 32]; for i in 0..32 { c[i] = word(r, 8 + 4 * i) as i32 as i64; } c };
        let objective = c(records[0]);
        let sums: Vec<Sum> = records[1..].iter().map(|r| Sum { r: word(r, 4) as i32 as i64, c: c(r) }).collect();
        let touch = sums.iter().map(|s| (0..n).filter(|&i| s.c[i] != 0).map(|i| 1 << i).sum()).collect();
        let mut start = [0; 32];
        start[..n].fill(3);
        run(n, touch, |k, w| revise_sum(&sums[k], n, w), start, &script, &mut out, |w| (0..n).map(|i| -most(-objective[i], w[i])).sum::<i64>().to_string());
    } else {
        let n = records.iter().filter(|r| r[0] == 1).count();
        let rows = |r: &[u8]| { let mut m = [0; 32]; for a in 0..32 { m[a] = word(r, 8 + 4 * a); } m };
        let tables: Vec<Table> = records[n..].iter().map(|r| Table { x: r[1] as usize, y: r[2] as usize, rows: rows(r) }).collect();
        let touch = tables.iter().map(|t| 1 << t.x | 1 << t.y).collect();
        let mut start = [0; 32];
        for i in 0..n {
            start[i] = word(records[i], 4);
        }
        let least = |w: &Node, i: usize, at: usize| (0..32).filter(|v| w[i] >> v & 1 != 0).map(|v| half(records[i], at + 4 * v)).min().unwrap_or(0);
        run(n, touch, |k, w| revise_table(&tables[k], w), start, &script, &mut out, |w| {
            format!("{}/{}", (0..n).map(|i| least(w, i, 8)).sum::<u32>(), (0..n).map(|i| least(w, i, 10)).sum::<u32>())
        });
    }
    std::io::stdout().write_all(out.as_bytes()).unwrap();
}

fn run(n: usize, touch: Vec<u32>, revise: impl Fn(usize, &mut Node) -> u32, start: Node, script: &str, out: &mut String, bound: impl Fn(&Node) -> String) {
    let mut root = start;
    close(n, &touch, None, |k, w| revise(k, w), &mut root);
    let mut space = Space { n, touch, revise, root, now: root, held: Vec::new(), allowance: 1_000_000 };
    for line in script.lines() {
        *out += &space.call(line, &bound);
        *out += "\n";
    }
}
