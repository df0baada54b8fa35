// The plain router: runs a job file over every point of the foil, and writes the lines that document 01 gives.
// It is written for the bench, to be set beside the proved program: no grid, no queues of strips, no state check.
use std::io::{Read, Write};

type Point = (usize, usize);

const ENTRIES: usize = 128;
const STRIPS: usize = 4096;
const CORNERS: usize = 8192;
const BYTES: usize = 60_000;

// Ends excluded; net 0 is a patch.
#[derive(Clone, Copy)]
struct Entry {
    net: usize,
    x0: usize,
    y0: usize,
    x1: usize,
    y1: usize,
}

// Width, height, the pen's half width and gap, and the row of entries.
struct Foil {
    w: usize,
    h: usize,
    half: usize,
    gap: usize,
    row: Vec<Entry>,
}

impl Foil {
    // How far away an entry blocks: the ink of a leg is wider than its points by the half width.
    fn margin(&self, e: &Entry) -> usize {
        match e.net {
            0 => self.half + self.gap,
            _ => 2 * self.half + self.gap,
        }
    }

    // Whether each point is free, row by row: the points nearer than the half width and the gap to the edge are not.
    fn free_points(&self) -> Vec<bool> {
        let m = self.half + self.gap;
        let mut free = vec![false; self.w * self.h];
        if self.w > 2 * m {
            for y in m..self.h.saturating_sub(m) {
                free[y * self.w..][m..self.w - m].fill(true);
            }
        }
        for e in &self.row {
            let d = self.margin(e);
            let xs = e.x0.saturating_sub(d)..(e.x1 + d).min(self.w);
            for y in e.y0.saturating_sub(d)..(e.y1 + d).min(self.h) {
                free[y * self.w..][xs.clone()].fill(false);
            }
        }
        free
    }

    // The strips: the runs of each y, those that stand on the y before too made taller.
    fn strips(&self) -> Vec<[usize; 4]> {
        let free = self.free_points();
        let mut strips: Vec<[usize; 4]> = Vec::new();
        let mut above: Vec<usize> = Vec::new();
        for y in 0..self.h {
            let points = &free[y * self.w..][..self.w];
            let mut here = Vec::new();
            let mut at = 0;
            let mut x = 0;
            while x < self.w {
                if !points[x] {
                    x += 1;
                    continue;
                }
                let x0 = x;
                while x < self.w && points[x] {
                    x += 1;
                }
                while at < above.len() && strips[above[at]][0] < x0 {
                    at += 1;
                }
                if at < above.len() && strips[above[at]][0] == x0 && strips[above[at]][2] == x {
                    strips[above[at]][3] = y + 1;
                    here.push(above[at]);
                } else {
                    here.push(strips.len());
                    strips.push([x0, y, x, y + 1]);
                }
            }
            above = here;
        }
        strips
    }

    // Takes a new row over, unless it makes too many entries (10) or strips (11).
    fn book(&mut self, row: Vec<Entry>) -> usize {
        if row.len() > ENTRIES {
            return 10;
        }
        let old = std::mem::replace(&mut self.row, row);
        if self.strips().len() > STRIPS {
            self.row = old;
            return 11;
        }
        0
    }

    // Whether p is a patch that blocks a point of e, a leg: one of its columns and one of its rows are near enough.
    fn crosses(&self, p: &Entry, e: &Entry) -> bool {
        let m = self.margin(p);
        p.net == 0
            && e.net != 0
            && (e.x0..e.x1).any(|x| p.x0 <= x + m && x < p.x1 + m)
            && (e.y0..e.y1).any(|y| p.y0 <= y + m && y < p.y1 + m)
    }

    fn draw(&mut self, x0: usize, y0: usize, x1: usize, y1: usize) -> usize {
        if !(x0 < x1 && x1 <= self.w && y0 < y1 && y1 <= self.h) {
            return 3;
        }
        let patch = Entry { net: 0, x0, y0, x1, y1 };
        if self.row.iter().any(|e| self.crosses(&patch, e)) {
            return 21;
        }
        let mut row = self.row.clone();
        row.push(patch);
        self.book(row)
    }

    fn lift(&mut self, net: usize) -> usize {
        if !(1..=999).contains(&net) {
            return 4;
        }
        if !self.row.iter().any(|e| e.net == net) {
            return 6;
        }
        let row = self.row.iter().copied().filter(|e| e.net != net).collect();
        self.book(row)
    }

    // Appends a leg as booked.
    fn put_leg(&mut self, net: usize, x0: usize, y0: usize, x1: usize, y1: usize) -> usize {
        if !(1..=999).contains(&net) {
            return 4;
        }
        let on = x0 < x1 && x1 <= self.w && y0 < y1 && y1 <= self.h;
        if !on || (x1 - x0 > 1 && y1 - y0 > 1) {
            return 3;
        }
        let leg = Entry { net, x0, y0, x1, y1 };
        if self.row.iter().any(|p| self.crosses(p, &leg)) {
            return 21;
        }
        let mut row = self.row.clone();
        row.push(leg);
        self.book(row)
    }

    // The corners of the track, or the number of the refusal.
    fn lay(&mut self, net: usize, s: Point, t: Point) -> Result<Vec<Point>, usize> {
        if !(1..=999).contains(&net) {
            return Err(4);
        }
        if self.row.iter().any(|e| e.net == net) {
            return Err(5);
        }
        let off = |p: Point| p.0 >= self.w || p.1 >= self.h;
        if off(s) || off(t) {
            return Err(7);
        }
        let free = self.free_points();
        if !free[s.1 * self.w + s.0] || !free[t.1 * self.w + t.0] {
            return Err(8);
        }
        let search = Search { w: self.w, h: self.h, free };
        let corners = search.first_path(s, t).ok_or(9usize)?;
        if corners.len() > CORNERS {
            return Err(12);
        }
        let mut row = self.row.clone();
        for k in 0..(corners.len() - 1).max(1) {
            let (a, b) = (corners[k], corners[(k + 1).min(corners.len() - 1)]);
            let (x0, y0) = (a.0.min(b.0), a.1.min(b.1));
            row.push(Entry { net, x0, y0, x1: a.0.max(b.0) + 1, y1: a.1.max(b.1) + 1 });
        }
        match self.book(row) {
            0 => Ok(corners),
            number => Err(number),
        }
    }
}

const LEVEL: usize = 0;
const UPRIGHT: usize = 1;

struct Search {
    w: usize,
    h: usize,
    free: Vec<bool>,
}

impl Search {
    // The free points in a level or upright line with p, first to last; point k of the line is at start + k * stride.
    fn run(&self, p: usize, way: usize) -> (std::ops::RangeInclusive<usize>, usize, usize) {
        let (start, stride, at, len) = match way {
            LEVEL => (p - p % self.w, 1, p % self.w, self.w),
            _ => (p % self.w, self.w, p / self.w, self.h),
        };
        let (mut a, mut b) = (at, at);
        while a > 0 && self.free[start + (a - 1) * stride] {
            a -= 1;
        }
        while b + 1 < len && self.free[start + (b + 1) * stride] {
            b += 1;
        }
        (a..=b, start, stride)
    }

    // The first path of fewest bends and least length. A point's label for a way to go is the number of legs to T, the
    // first one going that way, 0 none yet; beside it stands how many steps these legs have at least. Each round labels
    // the runs through the points that the round before labelled.
    fn first_path(&self, s: Point, t: Point) -> Option<Vec<Point>> {
        if s == t {
            return Some(vec![s]);
        }
        let (from, to) = (s.1 * self.w + s.0, t.1 * self.w + t.0);
        let mut labels = [vec![0u16; self.free.len()], vec![0u16; self.free.len()]];
        let mut steps = [vec![0u32; self.free.len()], vec![0u32; self.free.len()]];
        let mut last = [vec![to], vec![to]];
        let mut legs = 0;
        while labels[LEVEL][from] == 0 && labels[UPRIGHT][from] == 0 {
            legs += 1;
            let mut next = [Vec::new(), Vec::new()];
            for way in [LEVEL, UPRIGHT] {
                for &p in &last[1 - way] {
                    if labels[way][p] == 0 {
                        let (points, start, stride) = self.run(p, way);
                        let run: Vec<usize> = points.map(|k| start + k * stride).collect();
                        let at_hand = |q: usize| match legs {
                            1 => if q == to { 0 } else { u32::MAX / 2 },
                            _ => if labels[1 - way][q] == legs - 1 { steps[1 - way][q] } else { u32::MAX / 2 },
                        };
                        let mut least: Vec<u32> = run.iter().map(|&q| at_hand(q)).collect();
                        for k in 1..run.len() {
                            least[k] = least[k].min(least[k - 1] + 1);
                        }
                        for k in (1..run.len()).rev() {
                            least[k - 1] = least[k - 1].min(least[k] + 1);
                        }
                        for (&q, n) in run.iter().zip(least) {
                            labels[way][q] = legs;
                            steps[way][q] = n;
                        }
                        next[way].extend(run);
                    }
                }
            }
            if next[LEVEL].is_empty() && next[UPRIGHT].is_empty() {
                return None;
            }
            last = next;
        }
        Some(self.walk(from, to, legs, &labels, &steps))
    }

    // From S on, the corner with the smallest y, then the smallest x, from which one leg fewer leads to T, by as many
    // steps fewer as the leg has.
    fn walk(&self, from: usize, to: usize, legs: u16, labels: &[Vec<u16>; 2], steps: &[Vec<u32>; 2]) -> Vec<Point> {
        let mut corners = vec![from];
        let mut ways: Vec<usize> = [LEVEL, UPRIGHT].into_iter().filter(|&way| labels[way][from] == legs).collect();
        let mut most = ways.iter().map(|&way| steps[way][from]).min().expect("S has a label");
        for left in (0..legs).rev() {
            let p = corners[corners.len() - 1];
            let apart = |q: usize| ((p % self.w).abs_diff(q % self.w) + (p / self.w).abs_diff(q / self.w)) as u32;
            let mut best = None;
            for &way in ways.iter().filter(|&&way| steps[way][p] == most) {
                let (points, start, stride) = self.run(p, way);
                let leads = |q: usize| match left {
                    0 => q == to,
                    _ => q != p && labels[1 - way][q] == left && steps[1 - way][q] + apart(q) == most,
                };
                let first = points.map(|k| start + k * stride).find(|&q| leads(q));
                best = best.into_iter().chain(first.map(|q| (q, way))).min();
            }
            let (q, way) = best.expect("a label leads to the next");
            most -= apart(q);
            corners.push(q);
            ways = vec![1 - way];
        }
        corners.iter().map(|p| (p % self.w, p / self.w)).collect()
    }
}

fn run_job(bytes: &[u8], text: &mut String) {
    use std::fmt::Write;
    let mut line = |words: String| writeln!(text, "{words}").expect("a text grows");
    if bytes.len() > BYTES {
        return line("file 18".into());
    }
    let mut foil = Foil { w: 0, h: 0, half: 0, gap: 0, row: Vec::new() };
    let mut at = 0;
    loop {
        let Some(&map) = bytes.get(at) else {
            return line("file 14".into());
        };
        let has = |bit: usize| map >> bit & 1 == 1;
        if map > 63 {
            return line("file 15".into());
        }
        if has(0) != (at == 0) || (has(5) && !has(0)) {
            return line("file 16".into());
        }
        if map == 0 {
            if at + 1 < bytes.len() {
                return line("file 17".into());
            }
            for [x0, y0, x1, y1] in foil.strips() {
                line(format!("strip {x0} {y0} {x1} {y1}"));
            }
            return;
        }
        let sizes = [3, 4, 5, 1, 5, 2];
        let size: usize = (0..6).filter(|&bit| has(bit)).map(|bit| 2 * sizes[bit]).sum();
        if bytes.len() < at + 1 + size {
            return line("file 14".into());
        }
        let numbers: Vec<usize> =
            bytes[at + 1..at + 1 + size].chunks(2).map(|b| b[0] as usize + 256 * b[1] as usize).collect();
        // The half width and the gap of the pen stand last in the record, though its board comes first.
        let pen = if has(5) { numbers.last_chunk::<2>().copied() } else { None };
        let mut numbers = numbers.into_iter();
        let mut number = || numbers.next().expect("all fields are present");
        at += 1 + size;
        if has(0) {
            let (w, h, reach) = (number(), number(), number());
            let on = |n: usize| (1..=4096).contains(&n);
            let [half, gap] = pen.unwrap_or([0, reach]);
            let refusal = match pen {
                _ if !on(w) || !on(h) => 1,
                Some(_) if half > 7 || gap > 15 => 20,
                None if reach > 15 => 2,
                _ => 0,
            };
            line(format!("board {refusal}"));
            if refusal > 0 {
                return;
            }
            foil = Foil { w, h, half, gap, row: Vec::new() };
        }
        if has(1) {
            let refusal = foil.draw(number(), number(), number(), number());
            line(format!("patch {refusal}"));
        }
        if has(2) {
            let net = number();
            match foil.lay(net, (number(), number()), (number(), number())) {
                Err(refusal) => line(format!("track {net} {refusal}")),
                Ok(corners) => {
                    let places: String = corners.iter().map(|(x, y)| format!(" {x},{y}")).collect();
                    line(format!("track {net} 0 {}{places}", corners.len().saturating_sub(2)));
                }
            }
        }
        if has(3) {
            let net = number();
            line(format!("lift {net} {}", foil.lift(net)));
        }
        if has(4) {
            let net = number();
            line(format!("leg {net} {}", foil.put_leg(net, number(), number(), number(), number())));
        }
    }
}

fn main() {
    let mut bytes = Vec::new();
    std::io::stdin().read_to_end(&mut bytes).expect("a job on standard input");
    let mut text = String::new();
    run_job(&bytes, &mut text);
    std::io::stdout().write_all(text.as_bytes()).expect("room for the lines");
}
