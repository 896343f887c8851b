// A plain Rust loop over the equations of a 64 by 64 slab in arrays, for comparison with the
// program. It relaxes from 0 and prints the seconds and one entry.
use std::time::Instant;

const W: usize = 64;
const H: usize = 64;
const N: usize = W * H;

// The equations of a plan: for each free cell the weights toward its free neighbours, d, and the
// heat with what held neighbours give.
struct Equations {
    free: Vec<bool>,
    north: Vec<i64>,
    west: Vec<i64>,
    east: Vec<i64>,
    south: Vec<i64>,
    diagonal: Vec<i64>,
    source: Vec<i64>,
}

fn slab(top: i64, bottom: i64, first: i64, last: i64, heat: i64) -> Equations {
    let held = |cell: usize| {
        let (row, column) = (cell / W, cell % W);
        if row == 0 {
            Some(top)
        } else if row + 1 == H {
            Some(bottom)
        } else if column == 0 {
            Some(first)
        } else if column + 1 == W {
            Some(last)
        } else {
            None
        }
    };
    let mut e = Equations {
        free: vec![false; N],
        north: vec![0; N],
        west: vec![0; N],
        east: vec![0; N],
        south: vec![0; N],
        diagonal: vec![0; N],
        source: vec![0; N],
    };
    for cell in 0..N {
        if held(cell).is_some() {
            continue;
        }
        e.free[cell] = true;
        e.diagonal[cell] = 4;
        e.source[cell] = heat;
        for (weights, to) in [
            (&mut e.north, cell - W),
            (&mut e.west, cell - 1),
            (&mut e.east, cell + 1),
            (&mut e.south, cell + W),
        ] {
            match held(to) {
                Some(t) => e.source[cell] += t,
                None => weights[cell] = 1,
            }
        }
    }
    e
}

fn walk(e: &Equations, grid: &mut [i64], factor: i64) -> usize {
    let mut changed = 0;
    for cell in 0..N {
        if !e.free[cell] {
            continue;
        }
        let mut sum = e.source[cell];
        if e.north[cell] != 0 {
            sum += e.north[cell] * grid[cell - W];
        }
        if e.west[cell] != 0 {
            sum += e.west[cell] * grid[cell - 1];
        }
        if e.east[cell] != 0 {
            sum += e.east[cell] * grid[cell + 1];
        }
        if e.south[cell] != 0 {
            sum += e.south[cell] * grid[cell + W];
        }
        let d = e.diagonal[cell];
        if d == 0 {
            continue;
        }
        let old = grid[cell];
        let whole = factor * sum + (100 - factor) * (d * old);
        let new = (2 * whole + 100 * d).div_euclid(200 * d).clamp(-1_000_000_000, 1_000_000_000);
        if new != old {
            grid[cell] = new;
            changed += 1;
        }
    }
    changed
}

fn main() {
    let rounds: usize = std::env::args().nth(1).and_then(|a| a.parse().ok()).unwrap_or(10);
    let e = slab(1_000_000_000, 0, -250_000_000, 730_000_000, 40_000);
    let begun = Instant::now();
    let mut shown = 0;
    for _ in 0..rounds {
        let mut grid = vec![0; N];
        for _ in 0..1000 {
            if walk(&e, &mut grid, 100) == 0 {
                break;
            }
        }
        shown = grid[20 * W + 30];
    }
    println!("{:.3} s, entry {shown}", begun.elapsed().as_secs_f64());
}
