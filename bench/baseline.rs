// A straightforward Rust program with the same output as `root` for files that it takes to be lawful: the baseline that
// run.sh compares instruction counts with. No check of the format, plain loops, adjacency by scanning.
use std::io::{Read, Write};

#[path = "constraints.rs"]
mod constraints;
use constraints::*;

fn report(out: &mut String, n: usize, w: &[u32; 32], bound: impl Fn() -> String) {
    *out += "root";
    for x in &w[..n] {
        *out += &format!(" {x}");
    }
    if w[..n].iter().any(|&x| x == 0) {
        *out += "\nfailed\n";
        return;
    }
    match (0..n).filter(|&i| w[i].count_ones() > 1).min_by_key(|&i| w[i].count_ones()) {
        Some(x) => *out += &format!("\nchoice {x} {}", w[x].trailing_zeros()),
        None => {
            *out += "\nsolved";
            for x in &w[..n] {
                *out += &format!(" {}", x.trailing_zeros());
            }
        }
    }
    *out += &format!("\nbound {}\n", bound());
}

fn main() {
    let mut b = Vec::new();
    std::io::stdin().take(401 * RECORD as u64).read_to_end(&mut b).unwrap();
    let records: Vec<&[u8]> = b.chunks_exact(RECORD).collect();
    let mut out = String::new();
    let mut w = [0u32; 32];
    if b[0] == 3 {
        let n = b[1] as usize;
        let c = |r: &[u8]| { let mut c = [0; 32]; for i in 0..32 { c[i] = word(r, 8 + 4 * i) as i32 as i64; } c };
        let objective = c(records[0]);
        let sums: Vec<Sum> = records[1..].iter().map(|r| Sum { r: word(r, 4) as i32 as i64, c: c(r) }).collect();
        let touch: Vec<u32> = sums.iter().map(|s| (0..n).filter(|&i| s.c[i] != 0).map(|i| 1 << i).sum()).collect();
        out += &format!("sum variables {n} sums {}\n", sums.len());
        w[..n].fill(3);
        close(n, &touch, None, |k, w| revise_sum(&sums[k], n, w), &mut w);
        report(&mut out, n, &w, || (0..n).map(|i| -most(-objective[i], w[i])).sum::<i64>().to_string());
    } else {
        let n = records.iter().filter(|r| r[0] == 1).count();
        let rows = |r: &[u8]| { let mut m = [0; 32]; for a in 0..32 { m[a] = word(r, 8 + 4 * a); } m };
        let tables: Vec<Table> = records[n..].iter().map(|r| Table { x: r[1] as usize, y: r[2] as usize, rows: rows(r) }).collect();
        let touch: Vec<u32> = tables.iter().map(|t| 1 << t.x | 1 << t.y).collect();
        out += &format!("table variables {n} tables {}\n", tables.len());
        for i in 0..n {
            w[i] = word(records[i], 4);
        }
        close(n, &touch, None, |k, w| revise_table(&tables[k], w), &mut w);
        let least = |i: usize, at: usize| (0..32).filter(|v| w[i] >> v & 1 != 0).map(|v| half(records[i], at + 4 * v)).min().unwrap_or(0);
        report(&mut out, n, &w, || format!("{}/{}", (0..n).map(|i| least(i, 8)).sum::<u32>(), (0..n).map(|i| least(i, 10)).sum::<u32>()));
    }
    std::io::stdout().write_all(out.as_bytes()).unwrap();
}
