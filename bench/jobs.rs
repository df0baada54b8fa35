// The jobs of the bench: boards with patches, made from fixed numbers, so that every run has the same ones.

pub const END: [u8; 1] = [0];

// A board of document 01 with its patches (x0, y0, x1, y1), before anything is laid.
#[derive(Clone)]
pub struct Table {
    pub side: usize,
    pub patches: Vec<[usize; 4]>,
}

fn record(map: u8, numbers: &[usize]) -> Vec<u8> {
    let fields = numbers.iter().flat_map(|&n| [n as u8, (n >> 8) as u8]);
    std::iter::once(map).chain(fields).collect()
}

pub fn patch(p: [usize; 4]) -> Vec<u8> {
    record(2, &p)
}

pub fn track(net: usize, s: [usize; 2], t: [usize; 2]) -> Vec<u8> {
    record(4, &[net, s[0], s[1], t[0], t[1]])
}

pub fn lift(net: usize) -> Vec<u8> {
    record(8, &[net])
}

// A track that is lifted again in the same record.
pub fn track_and_lift(net: usize, s: [usize; 2], t: [usize; 2]) -> Vec<u8> {
    record(12, &[net, s[0], s[1], t[0], t[1], net])
}

impl Table {
    // The records that make the board, with no end mark.
    pub fn job(&self) -> Vec<u8> {
        let board = record(1, &[self.side, self.side, 0]);
        self.patches.iter().fold(board, |job, &p| [job, patch(p)].concat())
    }

    // The same board, each point of it `by` points wide and high.
    pub fn scaled(&self, by: usize) -> Table {
        Table { side: self.side * by, patches: self.patches.iter().map(|p| p.map(|n| n * by)).collect() }
    }

    // The board on a foil coarser by so much, rounded: edges that were apart may fall together, so it is another table.
    pub fn rounded(&self, by: usize) -> Table {
        let round = |p: &[usize; 4]| {
            let [x0, y0, x1, y1] = p.map(|n| n / by);
            [x0, y0, x1.max(x0 + 1), y1.max(y0 + 1)]
        };
        Table { side: self.side / by, patches: self.patches.iter().map(round).collect() }
    }

    pub fn free(&self, [x, y]: [usize; 2]) -> bool {
        !self.patches.iter().any(|p| p[0] <= x && x < p[2] && p[1] <= y && y < p[3])
    }
}

// A linear congruential generator.
pub struct Numbers(u64);

impl Numbers {
    pub fn from(seed: u64) -> Numbers {
        Numbers(seed)
    }

    pub fn below(&mut self, end: usize) -> usize {
        self.0 = self.0.wrapping_mul(6364136223846793005).wrapping_add(1442695040888963407);
        (self.0 >> 33) as usize % end
    }

    // A free point of the board.
    pub fn free_point(&mut self, table: &Table) -> [usize; 2] {
        loop {
            let point = [self.below(table.side), self.below(table.side)];
            if table.free(point) {
                return point;
            }
        }
    }
}

// Patches here and there, each up to `size` points wide and high.
pub fn scattered(side: usize, count: usize, size: usize) -> Table {
    let mut numbers = Numbers::from(3);
    let mut one = || {
        let (w, h) = (1 + numbers.below(size), 1 + numbers.below(size));
        let (x, y) = (numbers.below(side - w), numbers.below(side - h));
        [x, y, x + w, y + h]
    };
    Table { side, patches: (0..count).map(|_| one()).collect() }
}

// Level walls that leave a gap at the right and at the left end by turns: a path from the top to the bottom
// takes two legs for each.
pub fn comb(side: usize, walls: usize) -> Table {
    let step = side / (walls + 1);
    let gap = step.max(4) / 2;
    let wall = |k: usize| match k % 2 {
        1 => [0, k * step, side - gap, k * step + 1],
        _ => [gap, k * step, side, k * step + 1],
    };
    Table { side, patches: (1..=walls).map(wall).collect() }
}

// Walls that wind inwards from the top left corner: a path to the middle takes one leg for each.
pub fn spiral(side: usize, walls: usize) -> Table {
    let gap = side / (walls / 2 + 4);
    let (mut left, mut top, mut right, mut bottom) = (0, 0, side, side);
    let mut patches = Vec::new();
    for k in 0..walls {
        match k % 4 {
            0 => {
                top += gap;
                patches.push([left, top, right - gap, top + 1]);
            }
            1 => {
                right -= gap;
                patches.push([right, top, right + 1, bottom - gap]);
            }
            2 => {
                bottom -= gap;
                patches.push([left + gap, bottom, right + 1, bottom + 1]);
            }
            _ => {
                left += gap;
                patches.push([left, top + gap, left + 1, bottom + 1]);
            }
        }
    }
    Table { side, patches }
}

// Upright bars side by side, each a little shorter at both ends than the one before: where a row changes, all of
// them are looked at.
pub fn staggered(side: usize, bars: usize) -> Table {
    let (step, short) = (side / (bars + 1), side / (4 * bars));
    let bar = |k: usize| [k * step, k * short, k * step + 1, side - k * short];
    Table { side, patches: (1..=bars).map(bar).collect() }
}

// Document 01's foil of 127 by 127 with lines at each odd x and each odd y: 4,096 strips.
pub fn finest() -> Table {
    let upright = (0..63).map(|k| [2 * k + 1, 0, 2 * k + 2, 127]);
    let level = (0..63).map(|k| [0, 2 * k + 1, 127, 2 * k + 2]);
    Table { side: 127, patches: upright.chain(level).collect() }
}

// The board of the costliest lay found, by climbing from board to board, and the points that it joins.
pub fn worst() -> (Table, [usize; 2], [usize; 2]) {
    let job = include_bytes!("worst-lay.job");
    let numbers = |record: &[u8]| -> Vec<usize> {
        record[1..].chunks_exact(2).map(|n| n[0] as usize | (n[1] as usize) << 8).collect()
    };
    let (board, steps) = job.split_at(7);
    let (patches, lay) = steps.split_at(steps.len() - 12);
    let patches = patches.chunks_exact(9).map(|p| numbers(p).try_into().expect("a patch")).collect();
    let ends = numbers(lay);
    (Table { side: numbers(board)[0], patches }, [ends[1], ends[2]], [ends[3], ends[4]])
}
