//! The generator. A case depends on the seed and its number alone.

use crate::cases::Case;
use crate::model::*;

// Chance.

pub struct Random(u64);

impl Random {
    fn new(seed: u64, index: u64) -> Random {
        let mut random = Random((seed ^ 0x9e37_79b9_7f4a_7c15).wrapping_mul(0xbf58_476d_1ce4_e5b9) ^ index.wrapping_mul(0x94d0_49bb_1331_11eb));
        if random.0 == 0 {
            random.0 = 1;
        }
        for _ in 0..8 {
            random.next();
        }
        random
    }

    /// xorshift64*.
    fn next(&mut self) -> u64 {
        self.0 ^= self.0 >> 12;
        self.0 ^= self.0 << 25;
        self.0 ^= self.0 >> 27;
        self.0.wrapping_mul(0x2545_f491_4f6c_dd1d) >> 16
    }

    /// 0 to n - 1.
    fn below(&mut self, n: usize) -> usize {
        (self.next() % n as u64) as usize
    }

    /// From low to high, both included.
    fn between(&mut self, low: usize, high: usize) -> usize {
        low + self.below(high - low + 1)
    }

    fn percent(&mut self, chance: usize) -> bool {
        self.below(100) < chance
    }

    fn one_in(&mut self, n: usize) -> bool {
        self.below(n) == 0
    }

    fn pick<T: Copy>(&mut self, from: &[T]) -> T {
        from[self.below(from.len())]
    }

    /// An index, with the chances that the weights give.
    fn weigh(&mut self, weights: &[usize]) -> usize {
        let mut left = self.below(weights.iter().sum());
        for (at, &weight) in weights.iter().enumerate() {
            if left < weight {
                return at;
            }
            left -= weight;
        }
        unreachable!()
    }
}

// Shapes.

fn split(random: &mut Random, depth: usize, variables: usize) -> Shape {
    let inputs = random.between(0, variables);
    let outputs = random.between(0, variables - inputs);
    Shape { depth, inputs, outputs, memory: variables - inputs - outputs }
}

fn shape(random: &mut Random) -> Shape {
    match random.weigh(&[88, 9, 3]) {
        0 => {
            let depth = random.between(2, 4);
            let mut shape = Shape { depth, inputs: random.below(4), outputs: random.below(5), memory: random.below(4) };
            if shape.variables() == 0 {
                shape.memory = 1;
            }
            shape
        }
        1 => {
            let (depth, variables) = (random.between(2, 8), random.between(5, 40));
            split(random, depth, variables)
        }
        _ => {
            let (depth, variables) = (random.pick(&[2, 3, 15, 16]), random.pick(&[1, 2, 198, 199, 200]));
            split(random, depth, variables)
        }
    }
}

/// A shape that is another one, by little or by much.
fn other_shape(random: &mut Random, from: &Shape) -> Shape {
    let mut other = *from;
    match random.below(5) {
        0 if other.inputs > 0 => {
            other.inputs -= 1;
            other.outputs += 1;
        }
        1 if other.outputs > 0 => {
            other.outputs -= 1;
            other.memory += 1;
        }
        2 if other.memory > 0 => {
            other.memory -= 1;
            other.inputs += 1;
        }
        3 => other.depth = if other.depth == 16 { 15 } else { other.depth + 1 },
        _ => other = shape(random),
    }
    other
}

// Programs.

const PLAIN: [u8; 10] = [0, 1, 2, 3, 4, 5, 6, 7, 8, 9];
const END: u8 = 10;
const EXPRESSIONS: [u8; 4] = [16, 17, 18, 19];
const WRITES: [u8; 5] = [32, 33, 34, 35, 36];
const LABELS: [u8; 4] = [48, 49, 50, 51];

/// An expression of exactly so many bytes.
fn expression(random: &mut Random, variables: usize, size: usize, out: &mut Vec<u8>) {
    if size == 1 {
        let byte = if random.percent(12) { random.pick(&[250, 251]) } else { random.below(variables) as u8 };
        out.push(byte);
    } else if size == 2 || random.percent(20) {
        out.push(252);
        expression(random, variables, size - 1, out);
    } else {
        out.push(random.pick(&[253, 254]));
        let left = match random.below(4) {
            0 => 1,
            1 => size - 2,
            _ => random.between(1, size - 2),
        };
        expression(random, variables, left, out);
        expression(random, variables, size - 1 - left, out);
    }
}

fn some_expression(random: &mut Random, variables: usize) -> Vec<u8> {
    let size = match random.weigh(&[50, 36, 10, 2, 2]) {
        0 => 1,
        1 => random.between(2, 6),
        2 => random.between(7, 20),
        3 => random.between(21, 64),
        _ => random.pick(&[63, 64]),
    };
    let mut out = Vec::new();
    if random.percent(3) {
        out = vec![252; size - 1];
        expression(random, variables, 1, &mut out);
    } else {
        expression(random, variables, size, &mut out);
    }
    out
}

fn label_body(code: u8, label: usize) -> Vec<u8> {
    vec![code, (label % 256) as u8, (label / 256) as u8]
}

/// The body of instruction `own` of `count`. The weights are of: no operand, END, expression, variable, label.
fn body(random: &mut Random, shape: &Shape, own: usize, count: usize, weights: &[usize; 5]) -> Vec<u8> {
    if own + 1 == count {
        return vec![END];
    }
    match random.weigh(weights) {
        0 => vec![random.pick(&PLAIN)],
        1 => vec![END],
        3 if shape.inputs < shape.variables() => {
            vec![random.pick(&WRITES), random.between(shape.inputs, shape.variables() - 1) as u8]
        }
        4 => {
            let label = if random.percent(60) { random.between(own + 1, (own + 6).min(count - 1)) } else { random.between(own + 1, count - 1) };
            label_body(random.pick(&LABELS), label)
        }
        _ => {
            let mut out = vec![random.pick(&EXPRESSIONS)];
            out.extend(some_expression(random, shape.variables()));
            out
        }
    }
}

/// Calls of the next instruction. Each doubles what is done, so rows and steps grow fast.
fn tower(random: &mut Random, calls: usize) -> Vec<Vec<u8>> {
    (0..calls).map(|own| label_body(if random.percent(85) { 50 } else { random.pick(&[49, 51]) }, own + 1)).collect()
}

fn bodies(random: &mut Random, shape: &Shape, count: usize) -> Vec<Vec<u8>> {
    // Mixed; no jumps; calls; the stack; jumps and little else; calls of the next instruction, and then no jumps.
    let style = random.weigh(&[36, 18, 18, 15, 5, 8]);
    let weights = [[24, 2, 30, 34, 10], [14, 0, 40, 46, 0], [12, 9, 23, 36, 20], [50, 1, 20, 24, 5], [2, 3, 5, 10, 40], [8, 0, 46, 46, 0]][style];
    let calls = if style == 5 { random.between(1, 7).min(count - 1) } else { 0 };
    let mut bodies = tower(random, calls);
    bodies.extend((calls..count).map(|own| body(random, shape, own, count, &weights)));
    bodies
}

/// R7, R9: a file whose entries are right for these bodies.
fn assemble(shape: &Shape, bodies: &[Vec<u8>]) -> Vec<u8> {
    let mut file = vec![1, shape.depth as u8, shape.inputs as u8, shape.outputs as u8, shape.memory as u8];
    file.extend((bodies.len() as u16).to_le_bytes());
    let mut at = 0;
    for body in bodies {
        file.extend((at as u16).to_le_bytes());
        at += body.len();
    }
    for body in bodies {
        file.extend(body);
    }
    file
}

fn length(random: &mut Random, longest: usize) -> usize {
    match random.weigh(&[150, 400, 440, 10]) {
        0 => random.between(1, 8).min(longest),
        1 => random.between(5, 20).min(longest),
        2 => random.between(15, 40).min(longest),
        _ => random.pick(&[64, 100, 200, 255, 256, 257, 258, 300, 511, 512]).min(longest),
    }
}

// Damage.

/// One byte is changed, added or removed, or the file is cut.
fn damage_bytes(random: &mut Random, file: &mut Vec<u8>) {
    let odd =
        random.pick(&[0, 1, 2, 3, 4, 10, 11, 15, 16, 17, 20, 31, 32, 37, 47, 48, 52, 127, 128, 199, 200, 201, 249, 250, 251, 252, 253, 254, 255]);
    if file.is_empty() {
        file.push(odd);
        return;
    }
    let at = random.below(file.len());
    match random.below(8) {
        0 | 1 => file.truncate(at),
        2 => file[at] = random.below(256) as u8,
        3 => file[at] = file[at].wrapping_add(random.pick(&[1, 255])),
        4 => file[at] = odd,
        5 => file.insert(at, odd),
        6 => {
            file.remove(at);
        }
        _ => {
            for _ in 0..random.between(1, 3) {
                file.push(odd);
            }
        }
    }
}

fn damage_header(random: &mut Random, file: &mut Vec<u8>) {
    let put = |file: &mut Vec<u8>, at: usize, bytes: &[u8]| {
        for (k, &byte) in bytes.iter().enumerate() {
            if at + k < file.len() {
                file[at + k] = byte;
            }
        }
    };
    match random.below(6) {
        0 => put(file, 0, &[random.pick(&[0, 1, 2, 3, 255])]),
        1 => put(file, 1, &[random.pick(&[0, 1, 2, 16, 17, 18, 255])]),
        2 => put(file, random.between(2, 4), &[random.pick(&[0, 1, 199, 200, 201, 255])]),
        // Sums that a byte would wrap.
        3 => put(
            file,
            2,
            &random.pick(&[[0, 0, 0], [128, 128, 1], [255, 1, 1], [255, 255, 255], [100, 100, 1], [200, 0, 1], [0, 0, 201], [86, 85, 86]]),
        ),
        4 => put(file, 5, &random.pick(&[[0, 0], [0, 1], [0, 2], [1, 2], [2, 2], [255, 1], [255, 255]])),
        _ => {
            if file.len() > 5 {
                file[5] = file[5].wrapping_add(random.pick(&[1, 2, 254, 255]));
            }
        }
    }
}

fn damaged_program(random: &mut Random, shape: &Shape, mut bodies: Vec<Vec<u8>>) -> Vec<u8> {
    let count = bodies.len();
    let own = random.below(count);
    let variables = shape.variables();
    let kind = random.below(14);
    match kind {
        0 => bodies[own][0] = random.pick(&[11, 12, 15, 20, 31, 37, 47, 52, 64, 128, 254, 255]),
        1 => {
            let size = random.pick(&[65, 65, 66, 70, 100]);
            bodies[own] = vec![random.pick(&EXPRESSIONS)];
            expression(random, variables, size, &mut bodies[own]);
        }
        2 => {
            // A byte that no expression has.
            bodies[own] = vec![random.pick(&EXPRESSIONS)];
            bodies[own].extend(some_expression(random, variables));
            let at = random.between(1, bodies[own].len() - 1);
            bodies[own][at] = random.pick(&[variables as u8, variables as u8 + 1, 200, 249, 255]);
        }
        3 => {
            let below = if shape.inputs > 0 { random.below(shape.inputs) as u8 } else { 255 };
            let variable = random.pick(&[below, below, variables as u8, variables as u8, 200, 250, 255]);
            bodies[own] = vec![random.pick(&WRITES), variable];
        }
        4 => {
            let label = random.pick(&[0, own, own, own.saturating_sub(1), count, count, count + 1, own + 256, own + 257, 65_535]);
            bodies[own] = label_body(random.pick(&LABELS), label);
        }
        5 => {
            // The last instruction is another one.
            bodies[count - 1] = match random.below(4) {
                0 => vec![random.pick(&LABELS), 0, 0],
                1 => vec![random.pick(&WRITES), variables as u8 - 1],
                2 => vec![random.pick(&EXPRESSIONS), 0],
                _ => vec![random.pick(&PLAIN)],
            };
        }
        6 => {
            // An expression that runs on into the next body.
            bodies[own] = vec![random.pick(&EXPRESSIONS)];
            bodies[own].extend(some_expression(random, variables));
            bodies[own].pop();
        }
        13 => {
            // A wrong body, inside which or after which the file ends.
            bodies.truncate(own + 1);
            bodies[own] = match random.below(3) {
                0 => label_body(random.pick(&LABELS), random.pick(&[0, own, count, count + 1, 255, 256, 65_535])),
                1 => vec![random.pick(&WRITES), random.pick(&[0, variables as u8, 255])],
                _ => {
                    let mut long = vec![random.pick(&EXPRESSIONS)];
                    expression(random, variables, 65, &mut long);
                    long.truncate(random.pick(&[63, 64, 65, 65, 66]));
                    long
                }
            };
            if random.percent(50) {
                let cut = random.below(bodies[own].len());
                bodies[own].truncate(cut);
            }
            bodies.resize(count, vec![]);
        }
        _ => {}
    }
    let mut file = assemble(shape, &bodies);
    match kind {
        7 => {
            let at = 7 + 2 * own + random.below(2);
            file[at] = file[at].wrapping_add(random.pick(&[1, 2, 255]));
        }
        8 => damage_header(random, &mut file),
        9 => file.truncate(random.below(7 + 2 * count)),
        10..=12 => damage_bytes(random, &mut file),
        _ => {}
    }
    // Two faults at times, so that the order of the checks matters.
    if random.percent(15) {
        damage_bytes(random, &mut file);
    } else if random.percent(8) {
        damage_header(random, &mut file);
    }
    file
}

fn program_file(random: &mut Random, longest: usize, damaged: usize) -> Vec<u8> {
    let shape = shape(random);
    let count = length(random, longest);
    let bodies = bodies(random, &shape, count);
    if random.percent(damaged) {
        return damaged_program(random, &shape, bodies);
    }
    assemble(&shape, &bodies)
}

// Storages.

fn storage(random: &mut Random, cells: usize, damaged: usize) -> Vec<u8> {
    let ones = random.pick(&[0, 20, 50, 50, 50, 80, 100]);
    let mut storage: Vec<u8> = (0..cells).map(|_| random.percent(ones) as u8).collect();
    if random.percent(damaged) {
        match random.below(6) {
            0 => storage.truncate(random.below(cells)),
            1 => storage.truncate(cells - 1),
            2 => storage.push(random.pick(&[0, 1, 2, 255])),
            3 => storage.resize(cells + random.between(1, 60), random.pick(&[0, 1, 2])),
            _ => {
                for _ in 0..random.between(1, 3) {
                    let at = random.below(storage.len());
                    storage[at] = random.pick(&[2, 2, 3, 128, 254, 255]);
                }
            }
        }
    }
    storage
}

// Room.

/// Room of which `exact` is just enough.
fn room(random: &mut Random, exact: usize, most: usize) -> usize {
    let room = match random.weigh(&[72, 8, 2, 2, 13, 3]) {
        0 => exact,
        1 => exact.saturating_sub(1),
        2 => 0,
        3 => random.between(0, exact),
        4 => exact + random.between(1, 40),
        _ => exact + random.between(1, 2_000),
    };
    room.min(most)
}

/// Rows, where `first` are there to begin with and `all` in the end.
fn rows_room(random: &mut Random, first: usize, all: usize) -> usize {
    match random.weigh(&[300, 100, 100, 40, 50, 20, 300, 86, 4]) {
        0 => all,
        1 => all - 1,
        2 => random.between(first, all),
        3 => first,
        4 => first - 1,
        5 => random.pick(&[0, 1, 2, 3]),
        6 => all + random.between(1, 30),
        7 => all + random.between(1, 600),
        _ => random.pick(&[65_534, 65_535, 65_535, 65_536, 65_537, 80_000, 90_000]),
    }
}

fn usable(rows: usize) -> usize {
    rows.min(65_535)
}

fn output_room(random: &mut Random, exact: usize) -> usize {
    if random.one_in(500) {
        return random.pick(&[65_535, 65_536, 100_000, 400_000]);
    }
    room(random, exact, 400_000)
}

// Sets.

/// The table and the heads of a program, if they fit in so many rows and do not take long.
fn try_build(program: &Program, rows: usize, looked: u64) -> Option<(Table, Vec<u32>)> {
    if program.shape.first_rows() > rows {
        return None;
    }
    let mut table = Table::new(&program.shape, rows);
    let heads = turns(&mut table, program).ok()?;
    if table.looked > looked {
        return None;
    }
    Some((table, heads))
}

fn built_set(random: &mut Random, shape: &Shape) -> Set {
    let mut count = random.between(1, 16);
    loop {
        let bodies = bodies(random, shape, count);
        let program = check_program(&assemble(shape, &bodies)).expect("a program");
        if let Some((table, heads)) = try_build(&program, shape.first_rows() + 400, 500_000) {
            return own_numbering(shape, &table.rows, &heads);
        }
        count = 1 + count / 2;
    }
}

/// A set that no program need have: rows and heads by chance.
fn chance_set(random: &mut Random, shape: &Shape) -> Set {
    let first = shape.first_rows();
    let mut rows = unchanging_set(shape).rows;
    let tries = match random.weigh(&[90, 9, 1]) {
        0 => random.between(0, 30),
        1 => random.between(20, 120),
        _ => random.between(120, 1_000),
    };
    let near = random.percent(50);
    for _ in 0..tries {
        let low = if near { rows.len().saturating_sub(6).max(2) } else { 2 };
        let a = random.between(low, rows.len() - 1) as u32;
        let b = random.between(2, rows.len() - 1) as u32;
        let row = match random.below(3) {
            0 if matches!(rows[a as usize], Row::Not(_)) => continue,
            0 => Row::Not(a),
            _ if a == b => continue,
            1 => Row::And(a.min(b), a.max(b)),
            _ => Row::Or(a.min(b), a.max(b)),
        };
        if !rows.contains(&row) {
            rows.push(row);
        }
    }
    let mut heads = Vec::new();
    for cell in 0..shape.cells() {
        heads.push(match random.below(4) {
            0 => 2 + cell as u32,
            1 => random.below(rows.len()) as u32,
            _ => random.between(rows.len() - 8.min(rows.len() - first + 1), rows.len() - 1) as u32,
        });
    }
    own_numbering(shape, &rows, &heads)
}

/// A set of so many operation rows, each but the last named by the next one. No two are equal.
fn chain_set(random: &mut Random, shape: &Shape, count: usize) -> Set {
    let mut rows = unchanging_set(shape).rows;
    let first = rows.len();
    for own in first..first + count {
        let (a, b) = (random.between(2, own - 2) as u32, own as u32 - 1);
        rows.push(match random.below(3) {
            0 if !matches!(rows[own - 1], Row::Not(_)) => Row::Not(b),
            1 => Row::And(a, b),
            _ => Row::Or(a, b),
        });
    }
    let mut heads: Vec<u32> = (0..shape.cells()).map(|_| random.below(first + count) as u32).collect();
    heads[random.below(shape.cells())] = (first + count - 1) as u32;
    Set { shape: *shape, heads, rows }
}

fn set(random: &mut Random, shape: &Shape) -> Set {
    if random.one_in(2_000) {
        let count = random.between(200, 4_000);
        return chain_set(random, shape, count);
    }
    if random.one_in(50_000) {
        // All rows that there can be, or nearly.
        let count = 65_535 - shape.first_rows() - random.pick(&[0, 0, 1, 5]);
        return chain_set(random, shape, count);
    }
    match random.weigh(&[40, 20, 32, 8]) {
        0 => built_set(random, shape),
        1 => {
            let first = built_set(random, shape);
            let second = if random.percent(50) { built_set(random, shape) } else { chance_set(random, shape) };
            match join(&first, &second, shape.first_rows() + 1_000) {
                Ok((table, heads)) => own_numbering(shape, &table.rows, &heads),
                Err(_) => first,
            }
        }
        2 => chance_set(random, shape),
        _ => unchanging_set(shape),
    }
}

fn put_two(file: &mut [u8], at: usize, n: usize) {
    file[at] = (n % 256) as u8;
    file[at + 1] = (n / 256 % 256) as u8;
}

fn get_two(file: &[u8], at: usize) -> usize {
    file[at] as usize + 256 * file[at + 1] as usize
}

fn damaged_set(random: &mut Random, set: &Set) -> Vec<u8> {
    let mut file = write_set(set);
    let cells = set.shape.cells();
    let first = set.shape.first_rows();
    let count = set.rows.len() - first;
    let rows_at = 7 + 2 * cells;
    let kind = random.below(14);
    if count > 0 {
        let row = random.below(count);
        let (own, at) = (first + row, rows_at + 5 * row);
        let (a, b) = (get_two(&file, at + 1), get_two(&file, at + 3));
        match kind {
            0 => file[at] = random.pick(&[0, 1, 2, 3, 4, 255]),
            1 => {
                let operand = random.pick(&[0, 1, 2, own - 1, own, own + 1, 65_535, a, a + 1, b, b + 1]);
                put_two(&mut file, at + 1, operand);
            }
            2 => {
                let operand = random.pick(&[0, 1, 2, own - 1, own, own + 1, 65_535, a, a + 1, b + 1, b + 256]);
                put_two(&mut file, at + 3, operand);
            }
            3 => {
                put_two(&mut file, at + 1, b);
                put_two(&mut file, at + 3, a);
            }
            4 => {
                // A row again, in the place of another one.
                let other = rows_at + 5 * random.below(count);
                file.copy_within(at..at + 5, other);
            }
            5 => {
                // A row again, at the end.
                let again = file[at..at + 5].to_vec();
                file.extend(again);
                put_two(&mut file, 5, count + 1);
            }
            6 => {
                // NOT of some row, which may be a NOT or not be there.
                let operand = random.between(0, own + 1);
                let not = [1, (operand % 256) as u8, (operand / 256) as u8, 0, 0];
                file[at..at + 5].copy_from_slice(&not);
            }
            7 => {
                // All heads that name the row name another one.
                for cell in 0..cells {
                    if get_two(&file, 7 + 2 * cell) == own {
                        put_two(&mut file, 7 + 2 * cell, 2 + cell);
                    }
                }
            }
            _ => {}
        }
    }
    match kind {
        8 => {
            let head = 7 + 2 * random.below(cells);
            put_two(&mut file, head, random.pick(&[0, 1, 2, first, first + count - 1, first + count, first + count, first + count + 1, 65_535]));
        }
        9 => {
            // More rows at the end, which nothing names, or one another.
            let more = random.between(1, 3);
            for k in 0..more {
                let own = first + count + k;
                let (low, high) = (random.between(2, own - 1), own - 1);
                let row = if low == high {
                    [1, low as u8, (low / 256) as u8, 0, 0]
                } else {
                    [random.pick(&[2, 3]), low as u8, (low / 256) as u8, high as u8, (high / 256) as u8]
                };
                file.extend(row);
            }
            put_two(&mut file, 5, count + more);
        }
        10 => put_two(&mut file, 5, random.pick(&[count + 1, count + 2, count.saturating_sub(1), 65_535 - first, 65_536 - first, 65_535, 0])),
        11 => damage_header(random, &mut file),
        12 | 13 => damage_bytes(random, &mut file),
        _ => {}
    }
    if random.percent(12) {
        damage_bytes(random, &mut file);
    } else if random.percent(6) {
        damage_header(random, &mut file);
    }
    file
}

fn set_file(random: &mut Random, set: &Set, damaged: usize) -> Vec<u8> {
    if random.percent(damaged) {
        damaged_set(random, set)
    } else {
        write_set(set)
    }
}

// Cases.

fn scan_case(random: &mut Random) -> Case {
    let file = program_file(random, 512, 8);
    let Ok(program) = check_program(&file) else {
        let cells = random.between(4, 12);
        return Case::Scan { file, storage: storage(random, cells, 10), budget: random.below(50) as u32 };
    };
    let storage = storage(random, program.shape.cells(), 12);
    let most = if random.one_in(200) { 50_000 } else { 3_000 };
    let bits: Vec<bool> = (0..program.shape.cells()).map(|cell| storage.get(cell) == Some(&1)).collect();
    let budget = match run(&program, &bits, most) {
        Ok((steps, _)) => match random.weigh(&[40, 15, 3, 10, 20, 12]) {
            0 => steps,
            1 => steps - 1,
            2 => 0,
            3 => random.between(0, steps as usize) as u64,
            4 => steps + random.between(1, 100) as u64,
            _ => random.pick(&[65_535, 65_536, 1 << 31, (1 << 32) - 1]),
        },
        Err(_) => random.between(0, most as usize) as u64,
    };
    Case::Scan { file, storage, budget: budget as u32 }
}

fn build_case(random: &mut Random) -> Case {
    let damaged = 8;
    let mut longest = 512;
    let mut file = program_file(random, longest, damaged);
    if random.one_in(5_000) {
        return full_case(random);
    }
    let large = random.one_in(300);
    let (most, looked) = if large { (8_000, 50_000_000) } else { (1_500, 2_000_000) };
    loop {
        let Ok(program) = check_program(&file) else {
            let rows = random.between(0, 60);
            return Case::Build {
                file,
                rows,
                numbers: room(random, rows, 140_000),
                heads: room(random, 100, 112_000),
                output: room(random, 100, 400_000),
            };
        };
        let first = program.shape.first_rows();
        let heads = program.instructions.len() * program.shape.cells();
        if let Some((table, t0)) = try_build(&program, most, looked) {
            let exact = write_set(&own_numbering(&program.shape, &table.rows, &t0)).len();
            let rows = rows_room(random, first, table.rows.len());
            let numbers = room(random, usable(rows), 140_000);
            return Case::Build { file, rows, numbers, heads: room(random, heads, 112_000), output: output_room(random, exact) };
        }
        // Too many rows, or too long. At times that is the case, with few rows.
        if random.percent(20) {
            let rows = random.between(first, first + 60);
            return Case::Build {
                file,
                rows,
                numbers: room(random, rows, 140_000),
                heads: room(random, heads, 112_000),
                output: output_room(random, 400),
            };
        }
        longest = 1 + longest.min(program.instructions.len()) / 2;
        file = program_file(random, longest, damaged);
    }
}

/// A build that needs more than all rows that there can be, or than the thousands that it is lent.
fn full_case(random: &mut Random) -> Case {
    let shape = Shape { depth: random.between(2, 3), inputs: random.between(1, 3), outputs: 2, memory: 2 };
    let count = random.between(30, 40);
    let mut bodies = tower(random, 14);
    bodies.extend((14..count).map(|own| body(random, &shape, own, count, &[2, 0, 49, 49, 0])));
    let rows = random.pick(&[10_000, 30_000, 65_534, 65_535, 65_536, 90_000]);
    Case::Build { file: assemble(&shape, &bodies), rows, numbers: usable(rows), heads: count * shape.cells(), output: 400_000 }
}

fn evaluate_case(random: &mut Random) -> Case {
    let shape = shape(random);
    let set = set(random, &shape);
    let file = set_file(random, &set, 20);
    let values = if random.one_in(500) { random.pick(&[65_535, 65_536, 70_000]) } else { room(random, set.rows.len(), 70_000) };
    Case::Evaluate { file, storage: storage(random, shape.cells(), 18), values }
}

fn compose_case(random: &mut Random) -> Case {
    let shape = shape(random);
    let first = set(random, &shape);
    let second_shape = if random.percent(6) { other_shape(random, &shape) } else { shape };
    let second = set(random, &second_shape);
    let (mut all, mut exact) = (first.rows.len() + 10, 100);
    if shape == second_shape {
        if let Ok((table, heads)) = join(&first, &second, first.rows.len() + 2_000) {
            all = table.rows.len();
            exact = write_set(&own_numbering(&shape, &table.rows, &heads)).len();
        }
    }
    let rows = rows_room(random, first.rows.len(), all);
    Case::Compose {
        first: set_file(random, &first, 9),
        second: set_file(random, &second, 9),
        rows,
        numbers: room(random, first.rows.len() + second.rows.len() - second_shape.first_rows(), 140_000),
        output: output_room(random, exact),
    }
}

fn unchanging_case(random: &mut Random) -> Case {
    let shape = match random.below(10) {
        0 => {
            let odd = [0, 1, 2, 3, 16, 17, 56, 57, 100, 128, 199, 200, 201, 255];
            let depth = random.pick(&[0, 1, 2, 3, 15, 16, 17, 255]);
            Shape { depth, inputs: random.pick(&odd), outputs: random.pick(&odd), memory: random.pick(&odd) }
        }
        1 => {
            let depth = random.pick(&[0, 1, 2, 16, 17, 18, 255]);
            let variables = random.between(0, 20);
            split(random, depth, variables)
        }
        2 => {
            let depth = random.between(2, 16);
            let variables = random.pick(&[0, 199, 200, 201, 202, 255]);
            split(random, depth, variables)
        }
        _ => shape(random),
    };
    let exact = 7 + 2 * shape.cells();
    Case::Unchanging { shape, output: output_room(random, exact) }
}

pub fn case(seed: u64, index: u64) -> Case {
    let random = &mut Random::new(seed, index);
    match random.weigh(&[14, 18, 22, 14, 12, 16, 4]) {
        0 => Case::CheckProgram { file: program_file(random, 512, 60) },
        1 => scan_case(random),
        2 => build_case(random),
        3 => {
            let shape = shape(random);
            let set = set(random, &shape);
            Case::CheckSet { file: set_file(random, &set, 65) }
        }
        4 => evaluate_case(random),
        5 => compose_case(random),
        _ => unchanging_case(random),
    }
}
