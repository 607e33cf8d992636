//! The model: what docs/RULES.md says, in lists, with no thought of speed. Rules are cited by their numbers.

/// R46. Where an answer is about one of two files, `file` says which.
#[derive(Clone, Copy, PartialEq, Eq, Debug)]
pub struct Refusal {
    pub number: u32,
    pub place: usize,
    pub file: Option<&'static str>,
}

pub type Answer<T> = Result<T, Refusal>;

pub fn refuse<T>(number: u32, place: usize) -> Answer<T> {
    Err(Refusal { number, place, file: None })
}

/// R1, R2.
#[derive(Clone, Copy, PartialEq, Eq, Debug)]
pub struct Shape {
    pub depth: usize,
    pub inputs: usize,
    pub outputs: usize,
    pub memory: usize,
}

impl Shape {
    pub fn variables(&self) -> usize {
        self.inputs + self.outputs + self.memory
    }
    pub fn cells(&self) -> usize {
        self.variables() + 1 + self.depth
    }
    pub fn flag(&self) -> usize {
        self.variables()
    }
    /// The cell e_k, for k from 1.
    pub fn stack(&self, k: usize) -> usize {
        self.variables() + k
    }
    /// R26: the rows before the operation rows.
    pub fn first_rows(&self) -> usize {
        2 + self.cells()
    }
    /// R1, R46: the depth, then the variables.
    fn check(&self) -> Answer<()> {
        if self.depth < 2 || self.depth > 16 {
            return refuse(3, 1);
        }
        if self.variables() < 1 || self.variables() > 200 {
            return refuse(3, 2);
        }
        Ok(())
    }
}

/// R11.
#[derive(Clone, Debug)]
pub enum Expression {
    Zero,
    One,
    Variable(usize),
    Not(Box<Expression>),
    And(Box<Expression>, Box<Expression>),
    Or(Box<Expression>, Box<Expression>),
}

/// R10.
#[derive(Clone, Debug)]
pub enum Instruction {
    Init,
    Not,
    Tand,
    Tor,
    Push,
    Pop,
    Drop,
    Dup,
    Fswp,
    Eswp,
    End,
    Load(Expression),
    And(Expression),
    Or(Expression),
    Epush(Expression),
    Store(usize),
    Set(usize),
    Res(usize),
    Redge(usize),
    Fedge(usize),
    Jp(usize),
    Jpc(usize),
    Js(usize),
    Jsc(usize),
}

/// R8.
#[derive(Clone, Debug)]
pub struct Program {
    pub shape: Shape,
    pub instructions: Vec<Instruction>,
}

// Files.

/// R7, R48, R49: the header, up to the shape. The count is handed back unjudged.
fn header(file: &[u8], kind: u8) -> Answer<(Shape, usize)> {
    if file.len() < 7 {
        return refuse(1, file.len());
    }
    if file[0] != kind {
        return refuse(2, 0);
    }
    let shape = Shape { depth: file[1] as usize, inputs: file[2] as usize, outputs: file[3] as usize, memory: file[4] as usize };
    shape.check()?;
    Ok((shape, two_bytes(file, 5)))
}

/// R5.
fn two_bytes(file: &[u8], at: usize) -> usize {
    file[at] as usize + 256 * file[at + 1] as usize
}

struct Reader<'a> {
    file: &'a [u8],
    at: usize,
}

impl Reader<'_> {
    fn byte(&mut self) -> Answer<u8> {
        if self.at == self.file.len() {
            return refuse(1, self.file.len());
        }
        self.at += 1;
        Ok(self.file[self.at - 1])
    }

    /// R11, R48. The expression began at `start`.
    fn expression(&mut self, start: usize, variables: usize) -> Answer<Expression> {
        if self.at - start == 64 {
            return refuse(6, self.at);
        }
        let byte = self.byte()?;
        Ok(match byte {
            250 => Expression::Zero,
            251 => Expression::One,
            252 => Expression::Not(Box::new(self.expression(start, variables)?)),
            253 => {
                let left = self.expression(start, variables)?;
                Expression::And(Box::new(left), Box::new(self.expression(start, variables)?))
            }
            254 => {
                let left = self.expression(start, variables)?;
                Expression::Or(Box::new(left), Box::new(self.expression(start, variables)?))
            }
            _ if (byte as usize) < variables => Expression::Variable(byte as usize),
            _ => return refuse(6, self.at - 1),
        })
    }

    /// R12.
    fn variable(&mut self, shape: &Shape) -> Answer<usize> {
        let variable = self.byte()? as usize;
        if variable >= shape.variables() || variable < shape.inputs {
            return refuse(7, self.at - 1);
        }
        Ok(variable)
    }

    /// R13.
    fn label(&mut self, own: usize, count: usize) -> Answer<usize> {
        let low = self.byte()? as usize;
        let label = low + 256 * self.byte()? as usize;
        if label <= own || label >= count {
            return refuse(8, self.at - 2);
        }
        Ok(label)
    }
}

/// R8 to R14, R48.
pub fn check_program(file: &[u8]) -> Answer<Program> {
    let (shape, count) = header(file, 1)?;
    if count < 1 || count > 512 {
        return refuse(3, 5);
    }
    let first_body = 7 + 2 * count;
    if file.len() < first_body {
        return refuse(1, file.len());
    }
    let mut reader = Reader { file, at: first_body };
    let mut instructions = Vec::new();
    let mut last_code = first_body;
    for own in 0..count {
        if two_bytes(file, 7 + 2 * own) != reader.at - first_body {
            return refuse(4, 7 + 2 * own);
        }
        last_code = reader.at;
        let code = reader.byte()?;
        let start = reader.at;
        instructions.push(match code {
            0 => Instruction::Init,
            1 => Instruction::Not,
            2 => Instruction::Tand,
            3 => Instruction::Tor,
            4 => Instruction::Push,
            5 => Instruction::Pop,
            6 => Instruction::Drop,
            7 => Instruction::Dup,
            8 => Instruction::Fswp,
            9 => Instruction::Eswp,
            10 => Instruction::End,
            16 => Instruction::Load(reader.expression(start, shape.variables())?),
            17 => Instruction::And(reader.expression(start, shape.variables())?),
            18 => Instruction::Or(reader.expression(start, shape.variables())?),
            19 => Instruction::Epush(reader.expression(start, shape.variables())?),
            32 => Instruction::Store(reader.variable(&shape)?),
            33 => Instruction::Set(reader.variable(&shape)?),
            34 => Instruction::Res(reader.variable(&shape)?),
            35 => Instruction::Redge(reader.variable(&shape)?),
            36 => Instruction::Fedge(reader.variable(&shape)?),
            48 => Instruction::Jp(reader.label(own, count)?),
            49 => Instruction::Jpc(reader.label(own, count)?),
            50 => Instruction::Js(reader.label(own, count)?),
            51 => Instruction::Jsc(reader.label(own, count)?),
            _ => return refuse(5, last_code),
        });
    }
    if reader.at < file.len() {
        return refuse(4, reader.at);
    }
    match instructions[count - 1] {
        Instruction::End => Ok(Program { shape, instructions }),
        _ => refuse(9, last_code),
    }
}

/// R3, R50.
fn check_storage(shape: &Shape, storage: &[u8]) -> Answer<Vec<bool>> {
    if storage.len() != shape.cells() {
        return refuse(14, storage.len());
    }
    match storage.iter().position(|&byte| byte > 1) {
        Some(cell) => refuse(14, cell),
        None => Ok(storage.iter().map(|&byte| byte == 1).collect()),
    }
}

fn storage_bytes(storage: &[bool]) -> Vec<u8> {
    storage.iter().map(|&bit| bit as u8).collect()
}

// The machine.

fn value(expression: &Expression, old: &[bool]) -> bool {
    match expression {
        Expression::Zero => false,
        Expression::One => true,
        Expression::Variable(variable) => old[*variable],
        Expression::Not(x) => !value(x, old),
        Expression::And(x, y) => value(x, old) && value(y, old),
        Expression::Or(x, y) => value(x, old) || value(y, old),
    }
}

/// R19: `top` goes on the stack.
fn push(shape: &Shape, old: &[bool], new: &mut [bool], top: bool) {
    for k in 1..shape.depth {
        new[shape.stack(k + 1)] = old[shape.stack(k)];
    }
    new[shape.stack(1)] = top;
}

/// R19: the top is taken off.
fn drop_top(shape: &Shape, old: &[bool], new: &mut [bool]) {
    for k in 1..shape.depth {
        new[shape.stack(k)] = old[shape.stack(k + 1)];
    }
    new[shape.stack(shape.depth)] = false;
}

/// R16 to R20.
fn perform(shape: &Shape, instruction: &Instruction, old: &[bool]) -> Vec<bool> {
    let mut new = old.to_vec();
    let flag = shape.flag();
    let f = old[flag];
    let e1 = old[shape.stack(1)];
    let e2 = old[shape.stack(2)];
    match instruction {
        Instruction::Init | Instruction::End => {
            new[flag] = true;
            for k in 1..=shape.depth {
                new[shape.stack(k)] = false;
            }
        }
        Instruction::Not => new[flag] = !f,
        Instruction::Tand => new[flag] = f && e1,
        Instruction::Tor => new[flag] = f || e1,
        Instruction::Push => push(shape, old, &mut new, f),
        Instruction::Pop => {
            drop_top(shape, old, &mut new);
            new[flag] = e1;
        }
        Instruction::Drop => drop_top(shape, old, &mut new),
        Instruction::Dup => push(shape, old, &mut new, e1),
        Instruction::Fswp => {
            new[flag] = e1;
            new[shape.stack(1)] = f;
        }
        Instruction::Eswp => {
            new[shape.stack(1)] = e2;
            new[shape.stack(2)] = e1;
        }
        Instruction::Load(x) => new[flag] = value(x, old),
        Instruction::And(x) => new[flag] = f && value(x, old),
        Instruction::Or(x) => new[flag] = f || value(x, old),
        Instruction::Epush(x) => push(shape, old, &mut new, value(x, old)),
        Instruction::Store(b) => new[*b] = f,
        Instruction::Set(b) => new[*b] = f || old[*b],
        Instruction::Res(b) => new[*b] = !f && old[*b],
        Instruction::Redge(b) => {
            new[*b] = f;
            new[flag] = f && !old[*b];
        }
        Instruction::Fedge(b) => {
            new[*b] = f;
            new[flag] = !f && old[*b];
        }
        Instruction::Jp(_) | Instruction::Jpc(_) | Instruction::Js(_) | Instruction::Jsc(_) => {}
    }
    new
}

/// R21 to R25, over a program and a storage that were judged before.
pub fn run(program: &Program, storage: &[bool], budget: u64) -> Answer<(u64, Vec<bool>)> {
    let mut due = 0;
    let mut storage = storage.to_vec();
    let mut returns: Vec<usize> = Vec::new();
    let mut steps = 0;
    loop {
        if steps == budget {
            return refuse(11, due);
        }
        steps += 1;
        let instruction = &program.instructions[due];
        let f = storage[program.shape.flag()];
        storage = perform(&program.shape, instruction, &storage);
        match instruction {
            Instruction::Jp(label) => due = *label,
            Instruction::Jpc(label) => due = if f { *label } else { due + 1 },
            Instruction::Js(label) => {
                returns.push(due + 1);
                due = *label;
            }
            Instruction::Jsc(label) => {
                if f {
                    returns.push(due + 1);
                    due = *label;
                } else {
                    due += 1;
                }
            }
            Instruction::End => match returns.pop() {
                Some(next) => due = next,
                None => return Ok((steps, storage)),
            },
            _ => due += 1,
        }
    }
}

/// R25, R51: the file, the storage, the budget.
pub fn scan(file: &[u8], storage: &[u8], budget: u64) -> Answer<(u64, Vec<u8>)> {
    let program = check_program(file)?;
    let storage = check_storage(&program.shape, storage)?;
    let (steps, storage) = run(&program, &storage, budget)?;
    Ok((steps, storage_bytes(&storage)))
}

// Rows.

/// R26.
#[derive(Clone, Copy, PartialEq, Eq, Debug)]
pub enum Row {
    Zero,
    One,
    Cell(u32),
    Not(u32),
    And(u32, u32),
    Or(u32, u32),
}

fn operands(row: Row) -> Vec<u32> {
    match row {
        Row::Not(a) => vec![a],
        Row::And(a, b) | Row::Or(a, b) => vec![a, b],
        _ => vec![],
    }
}

/// R26, R30. `usable` is as in R53; `looked` counts the rows that were looked at, so that a generator can leave out what takes long.
pub struct Table {
    pub rows: Vec<Row>,
    pub usable: usize,
    pub looked: u64,
}

impl Table {
    pub fn new(shape: &Shape, usable: usize) -> Table {
        let mut rows = vec![Row::Zero, Row::One];
        for cell in 0..shape.cells() {
            rows.push(Row::Cell(cell as u32));
        }
        Table { rows, usable, looked: 0 }
    }

    /// R30, R54.
    fn need(&mut self, row: Row) -> Answer<u32> {
        self.looked += self.rows.len() as u64;
        if let Some(at) = self.rows.iter().position(|&other| other == row) {
            return Ok(at as u32);
        }
        if self.rows.len() >= self.usable {
            return refuse(10, self.usable);
        }
        self.rows.push(row);
        Ok(self.rows.len() as u32 - 1)
    }

    /// R28.
    fn not(&mut self, a: u32) -> Answer<u32> {
        if a == 0 {
            return Ok(1);
        }
        if a == 1 {
            return Ok(0);
        }
        if let Row::Not(b) = self.rows[a as usize] {
            return Ok(b);
        }
        self.need(Row::Not(a))
    }

    /// R29.
    fn and(&mut self, a: u32, b: u32) -> Answer<u32> {
        if a == 0 || b == 0 {
            return Ok(0);
        }
        if a == 1 {
            return Ok(b);
        }
        if b == 1 || a == b {
            return Ok(a);
        }
        self.need(Row::And(a.min(b), a.max(b)))
    }

    /// R29.
    fn or(&mut self, a: u32, b: u32) -> Answer<u32> {
        if a == 1 || b == 1 {
            return Ok(1);
        }
        if a == 0 {
            return Ok(b);
        }
        if b == 0 || a == b {
            return Ok(a);
        }
        self.need(Row::Or(a.min(b), a.max(b)))
    }

    /// R37: left operand, right operand, outer row.
    fn expression(&mut self, expression: &Expression) -> Answer<u32> {
        match expression {
            Expression::Zero => Ok(0),
            Expression::One => Ok(1),
            Expression::Variable(variable) => Ok(2 + *variable as u32),
            Expression::Not(x) => {
                let x = self.expression(x)?;
                self.not(x)
            }
            Expression::And(x, y) => {
                let x = self.expression(x)?;
                let y = self.expression(y)?;
                self.and(x, y)
            }
            Expression::Or(x, y) => {
                let x = self.expression(x)?;
                let y = self.expression(y)?;
                self.or(x, y)
            }
        }
    }
}

/// R32.
fn unchanging_heads(shape: &Shape) -> Vec<u32> {
    (0..shape.cells()).map(|cell| 2 + cell as u32).collect()
}

/// R33: which of the rows the heads reach.
fn reached(rows: &[Row], heads: &[u32]) -> Vec<bool> {
    let mut reached = vec![false; rows.len()];
    for &head in heads {
        reached[head as usize] = true;
    }
    for row in (0..rows.len()).rev() {
        if reached[row] {
            for operand in operands(rows[row]) {
                reached[operand as usize] = true;
            }
        }
    }
    reached
}

/// R34: Y after X. X's heads are over the table; Y's are over `y_rows`, which may be a copy of the same table.
fn after(table: &mut Table, x: &[u32], y_rows: &[Row], y: &[u32]) -> Answer<Vec<u32>> {
    let reached = reached(y_rows, y);
    let mut new = vec![0; y_rows.len()];
    for row in 0..y_rows.len() {
        if reached[row] {
            new[row] = match y_rows[row] {
                Row::Zero => 0,
                Row::One => 1,
                Row::Cell(cell) => x[cell as usize],
                Row::Not(a) => table.not(new[a as usize])?,
                Row::And(a, b) => table.and(new[a as usize], new[b as usize])?,
                Row::Or(a, b) => table.or(new[a as usize], new[b as usize])?,
            };
        }
    }
    Ok(y.iter().map(|&head| new[head as usize]).collect())
}

fn after_here(table: &mut Table, x: &[u32], y: &[u32]) -> Answer<Vec<u32>> {
    let rows = table.rows.clone();
    after(table, x, &rows, y)
}

/// R35.
fn choice(table: &mut Table, shape: &Shape, x: &[u32], y: &[u32]) -> Answer<Vec<u32>> {
    let f = 2 + shape.flag() as u32;
    let mut heads = Vec::new();
    for cell in 0..shape.cells() {
        if x[cell] == y[cell] {
            heads.push(x[cell]);
        } else {
            let not_f = table.not(f)?;
            let left = table.and(f, x[cell])?;
            let right = table.and(not_f, y[cell])?;
            heads.push(table.or(left, right)?);
        }
    }
    Ok(heads)
}

/// R17 to R20, R37: the row that one cell gets.
fn own_head(table: &mut Table, shape: &Shape, instruction: &Instruction, cell: usize) -> Answer<u32> {
    let same = 2 + cell as u32;
    let f = 2 + shape.flag() as u32;
    let e = |k: usize| 2 + shape.stack(k) as u32;
    let is_flag = cell == shape.flag();
    // k of e_k, and 0 for the other cells.
    let k = if cell > shape.flag() { cell - shape.flag() } else { 0 };
    let next_below = if k == shape.depth { 0 } else { e(k + 1) };
    match instruction {
        Instruction::Init | Instruction::End if is_flag => Ok(1),
        Instruction::Init | Instruction::End if k > 0 => Ok(0),
        Instruction::Load(x) if is_flag => table.expression(x),
        Instruction::And(x) if is_flag => {
            let x = table.expression(x)?;
            table.and(f, x)
        }
        Instruction::Or(x) if is_flag => {
            let x = table.expression(x)?;
            table.or(f, x)
        }
        Instruction::Not if is_flag => table.not(f),
        Instruction::Tand if is_flag => table.and(f, e(1)),
        Instruction::Tor if is_flag => table.or(f, e(1)),
        Instruction::Store(b) if cell == *b => Ok(f),
        Instruction::Set(b) if cell == *b => table.or(f, same),
        Instruction::Res(b) if cell == *b => {
            let not_f = table.not(f)?;
            table.and(not_f, same)
        }
        Instruction::Redge(b) | Instruction::Fedge(b) if cell == *b => Ok(f),
        Instruction::Redge(b) if is_flag => {
            let not_b = table.not(2 + *b as u32)?;
            table.and(f, not_b)
        }
        Instruction::Fedge(b) if is_flag => {
            let not_f = table.not(f)?;
            table.and(not_f, 2 + *b as u32)
        }
        Instruction::Push if k == 1 => Ok(f),
        Instruction::Epush(x) if k == 1 => table.expression(x),
        Instruction::Dup if k == 1 => Ok(e(1)),
        Instruction::Push | Instruction::Epush(_) | Instruction::Dup if k > 1 => Ok(e(k - 1)),
        Instruction::Drop | Instruction::Pop if k > 0 => Ok(next_below),
        Instruction::Pop if is_flag => Ok(e(1)),
        Instruction::Fswp if is_flag => Ok(e(1)),
        Instruction::Fswp if k == 1 => Ok(f),
        Instruction::Eswp if k == 1 => Ok(e(2)),
        Instruction::Eswp if k == 2 => Ok(e(1)),
        _ => Ok(same),
    }
}

fn own_set(table: &mut Table, shape: &Shape, instruction: &Instruction) -> Answer<Vec<u32>> {
    let mut heads = Vec::new();
    for cell in 0..shape.cells() {
        heads.push(own_head(table, shape, instruction, cell)?);
    }
    Ok(heads)
}

/// R38: the heads of T(0), from T(n-1) on.
pub fn turns(table: &mut Table, program: &Program) -> Answer<Vec<u32>> {
    let count = program.instructions.len();
    let shape = &program.shape;
    let mut t: Vec<Vec<u32>> = vec![Vec::new(); count];
    for i in (0..count).rev() {
        t[i] = match &program.instructions[i] {
            Instruction::End => own_set(table, shape, &Instruction::End)?,
            Instruction::Jp(label) => t[*label].clone(),
            Instruction::Jpc(label) => choice(table, shape, &t[*label], &t[i + 1])?,
            Instruction::Js(label) => after_here(table, &t[*label], &t[i + 1])?,
            Instruction::Jsc(label) => {
                let called = after_here(table, &t[*label], &t[i + 1])?;
                choice(table, shape, &called, &t[i + 1])?
            }
            other => {
                let own = own_set(table, shape, other)?;
                after_here(table, &own, &t[i + 1])?
            }
        };
    }
    Ok(t[0].clone())
}

// Sets.

/// R31, R36: all rows, the first 2 + C too.
#[derive(Clone, Debug)]
pub struct Set {
    pub shape: Shape,
    pub heads: Vec<u32>,
    pub rows: Vec<Row>,
}

/// R36.
pub fn own_numbering(shape: &Shape, rows: &[Row], heads: &[u32]) -> Set {
    let reached = reached(rows, heads);
    let mut kept = Vec::new();
    let mut new = Vec::new();
    for (at, &row) in rows.iter().enumerate() {
        new.push(kept.len() as u32);
        if at < shape.first_rows() || reached[at] {
            kept.push(match row {
                Row::Not(a) => Row::Not(new[a as usize]),
                Row::And(a, b) => Row::And(new[a as usize], new[b as usize]),
                Row::Or(a, b) => Row::Or(new[a as usize], new[b as usize]),
                first => first,
            });
        }
    }
    Set { shape: *shape, heads: heads.iter().map(|&head| new[head as usize]).collect(), rows: kept }
}

/// R7, R41, R42.
pub fn write_set(set: &Set) -> Vec<u8> {
    let shape = &set.shape;
    let operations = &set.rows[shape.first_rows()..];
    let mut file = vec![2, shape.depth as u8, shape.inputs as u8, shape.outputs as u8, shape.memory as u8];
    let two = |file: &mut Vec<u8>, n: u32| file.extend([(n % 256) as u8, (n / 256) as u8]);
    two(&mut file, operations.len() as u32);
    for &head in &set.heads {
        two(&mut file, head);
    }
    for &row in operations {
        let (kind, a, b) = match row {
            Row::Not(a) => (1, a, 0),
            Row::And(a, b) => (2, a, b),
            Row::Or(a, b) => (3, a, b),
            _ => panic!("not an operation row"),
        };
        file.push(kind);
        two(&mut file, a);
        two(&mut file, b);
    }
    file
}

/// R41 to R44, R49.
pub fn check_set(file: &[u8]) -> Answer<Set> {
    let (shape, count) = header(file, 2)?;
    let all = shape.first_rows() + count;
    if all > 65_535 {
        return refuse(3, 5);
    }
    let first_row = 7 + 2 * shape.cells();
    let length = first_row + 5 * count;
    if file.len() < length {
        return refuse(1, file.len());
    }
    if file.len() > length {
        return refuse(4, length);
    }
    let mut heads = Vec::new();
    for cell in 0..shape.cells() {
        let head = two_bytes(file, 7 + 2 * cell);
        if head >= all {
            return refuse(13, 7 + 2 * cell);
        }
        heads.push(head as u32);
    }
    let mut rows = Table::new(&shape, 0).rows;
    for at in (first_row..length).step_by(5) {
        let own = rows.len() as u32;
        let a = two_bytes(file, at + 1) as u32;
        let b = two_bytes(file, at + 3) as u32;
        let two_fit = 2 <= a && a < b && b < own;
        let row = match file[at] {
            1 if b == 0 && 2 <= a && a < own && !matches!(rows[a as usize], Row::Not(_)) => Row::Not(a),
            2 if two_fit => Row::And(a, b),
            3 if two_fit => Row::Or(a, b),
            _ => return refuse(13, at),
        };
        if rows.contains(&row) {
            return refuse(13, at);
        }
        rows.push(row);
    }
    let mut named = vec![false; rows.len()];
    for &head in &heads {
        named[head as usize] = true;
    }
    for &row in &rows {
        for operand in operands(row) {
            named[operand as usize] = true;
        }
    }
    for row in shape.first_rows()..rows.len() {
        if !named[row] {
            return refuse(13, first_row + 5 * (row - shape.first_rows()));
        }
    }
    Ok(Set { shape, heads, rows })
}

// Operations that take room.

/// R53.
fn usable(rows: usize) -> usize {
    rows.min(65_535)
}

/// R36, R59: the file, if the output has room for it.
fn output(shape: &Shape, rows: &[Row], heads: &[u32], room: usize) -> Answer<Vec<u8>> {
    let file = write_set(&own_numbering(shape, rows, heads));
    if file.len() > room {
        return refuse(10, rows.len());
    }
    Ok(file)
}

/// R38, R39, R51, R54, R55.
pub fn build(file: &[u8], rows: usize, numbers: usize, heads: usize, room: usize) -> Answer<Vec<u8>> {
    let program = check_program(file)?;
    let shape = &program.shape;
    if usable(rows) < shape.first_rows() || numbers < usable(rows) || heads < program.instructions.len() * shape.cells() {
        return refuse(10, 0);
    }
    let mut table = Table::new(shape, usable(rows));
    let heads = turns(&mut table, &program)?;
    output(shape, &table.rows, &heads, room)
}

/// R31, R51, R57.
pub fn evaluate(file: &[u8], storage: &[u8], values: usize) -> Answer<Vec<u8>> {
    let set = check_set(file)?;
    let storage = check_storage(&set.shape, storage)?;
    if values < set.rows.len() {
        return refuse(10, 0);
    }
    let mut value: Vec<bool> = Vec::new();
    for &row in &set.rows {
        let new = match row {
            Row::Zero => false,
            Row::One => true,
            Row::Cell(cell) => storage[cell as usize],
            Row::Not(a) => !value[a as usize],
            Row::And(a, b) => value[a as usize] && value[b as usize],
            Row::Or(a, b) => value[a as usize] || value[b as usize],
        };
        value.push(new);
    }
    let result: Vec<bool> = set.heads.iter().map(|&head| value[head as usize]).collect();
    Ok(storage_bytes(&result))
}

/// R34, R40: the table after composing, and the heads.
pub fn join(first: &Set, second: &Set, usable: usize) -> Answer<(Table, Vec<u32>)> {
    let mut table = Table { rows: first.rows.clone(), usable, looked: 0 };
    let heads = after(&mut table, &first.heads, &second.rows, &second.heads)?;
    Ok((table, heads))
}

/// R40, R51, R54, R56.
pub fn compose(first: &[u8], second: &[u8], rows: usize, numbers: usize, room: usize) -> Answer<Vec<u8>> {
    let first = check_set(first).map_err(|r| Refusal { file: Some("first"), ..r })?;
    let second = check_set(second).map_err(|r| Refusal { file: Some("second"), ..r })?;
    let shape = first.shape;
    if shape != second.shape {
        return refuse(12, 0);
    }
    if usable(rows) < first.rows.len() || numbers < first.rows.len() + second.rows.len() - shape.first_rows() {
        return refuse(10, 0);
    }
    let (table, heads) = join(&first, &second, usable(rows))?;
    output(&shape, &table.rows, &heads, room)
}

pub fn unchanging_set(shape: &Shape) -> Set {
    Set { shape: *shape, heads: unchanging_heads(shape), rows: Table::new(shape, 0).rows }
}

/// R32, R58, R59.
pub fn write_unchanging(shape: &Shape, room: usize) -> Answer<Vec<u8>> {
    shape.check()?;
    let set = unchanging_set(shape);
    output(shape, &set.rows, &set.heads, room)
}
