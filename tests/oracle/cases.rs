//! Cases and their answers, as tests/README.md describes them.

use crate::model::*;

pub enum Case {
    CheckProgram { file: Vec<u8> },
    Scan { file: Vec<u8>, storage: Vec<u8>, budget: u32 },
    Build { file: Vec<u8>, rows: usize, numbers: usize, heads: usize, output: usize },
    CheckSet { file: Vec<u8> },
    Evaluate { file: Vec<u8>, storage: Vec<u8>, values: usize },
    Compose { first: Vec<u8>, second: Vec<u8>, rows: usize, numbers: usize, output: usize },
    Unchanging { shape: Shape, output: usize },
}

fn number(out: &mut Vec<u8>, n: usize) {
    out.extend((n as u32).to_le_bytes());
}

fn string(out: &mut Vec<u8>, s: &[u8]) {
    number(out, s.len());
    out.extend(s);
}

impl Case {
    pub fn operation(&self) -> usize {
        match self {
            Case::CheckProgram { .. } => 1,
            Case::Scan { .. } => 2,
            Case::Build { .. } => 3,
            Case::CheckSet { .. } => 4,
            Case::Evaluate { .. } => 5,
            Case::Compose { .. } => 6,
            Case::Unchanging { .. } => 7,
        }
    }

    pub fn write(&self, out: &mut Vec<u8>) {
        out.push(self.operation() as u8);
        match self {
            Case::CheckProgram { file } | Case::CheckSet { file } => string(out, file),
            Case::Scan { file, storage, budget } => {
                string(out, file);
                string(out, storage);
                number(out, *budget as usize);
            }
            Case::Build { file, rows, numbers, heads, output } => {
                string(out, file);
                for n in [rows, numbers, heads, output] {
                    number(out, *n);
                }
            }
            Case::Evaluate { file, storage, values } => {
                string(out, file);
                string(out, storage);
                number(out, *values);
            }
            Case::Compose { first, second, rows, numbers, output } => {
                string(out, first);
                string(out, second);
                for n in [rows, numbers, output] {
                    number(out, *n);
                }
            }
            Case::Unchanging { shape, output } => {
                for n in [shape.depth, shape.inputs, shape.outputs, shape.memory, *output] {
                    number(out, n);
                }
            }
        }
    }

    /// The case that begins at `at`, which moves past it.
    pub fn read(bytes: &[u8], at: &mut usize) -> Case {
        let operation = bytes[*at];
        *at += 1;
        match operation {
            1 => Case::CheckProgram { file: read_string(bytes, at) },
            2 => Case::Scan { file: read_string(bytes, at), storage: read_string(bytes, at), budget: read_number(bytes, at) as u32 },
            3 => Case::Build {
                file: read_string(bytes, at),
                rows: read_number(bytes, at),
                numbers: read_number(bytes, at),
                heads: read_number(bytes, at),
                output: read_number(bytes, at),
            },
            4 => Case::CheckSet { file: read_string(bytes, at) },
            5 => Case::Evaluate { file: read_string(bytes, at), storage: read_string(bytes, at), values: read_number(bytes, at) },
            6 => Case::Compose {
                first: read_string(bytes, at),
                second: read_string(bytes, at),
                rows: read_number(bytes, at),
                numbers: read_number(bytes, at),
                output: read_number(bytes, at),
            },
            7 => Case::Unchanging {
                shape: Shape {
                    depth: read_number(bytes, at),
                    inputs: read_number(bytes, at),
                    outputs: read_number(bytes, at),
                    memory: read_number(bytes, at),
                },
                output: read_number(bytes, at),
            },
            _ => panic!("no operation {operation}"),
        }
    }

    /// The answer as a line, and the number of the refusal, or 0.
    pub fn answer(&self) -> (String, u32) {
        let line = match self {
            Case::CheckProgram { file } => check_program(file).map(|_| "granted".to_string()),
            Case::Scan { file, storage, budget } => {
                scan(file, storage, *budget as u64).map(|(steps, storage)| format!("steps {} storage {}", steps, hex(&storage)))
            }
            Case::Build { file, rows, numbers, heads, output } => build(file, *rows, *numbers, *heads, *output).map(wrote),
            Case::CheckSet { file } => check_set(file).map(|_| "granted".to_string()),
            Case::Evaluate { file, storage, values } => evaluate(file, storage, *values).map(|s| format!("storage {}", hex(&s))),
            Case::Compose { first, second, rows, numbers, output } => compose(first, second, *rows, *numbers, *output).map(wrote),
            Case::Unchanging { shape, output } => write_unchanging(shape, *output).map(wrote),
        };
        match line {
            Ok(line) => (line, 0),
            Err(Refusal { number, place, file }) => {
                let about = file.map_or(String::new(), |file| format!(" in {file}"));
                (format!("refused {number} at {place}{about}"), number)
            }
        }
    }
}

fn read_number(bytes: &[u8], at: &mut usize) -> usize {
    *at += 4;
    u32::from_le_bytes(bytes[*at - 4..*at].try_into().unwrap()) as usize
}

fn read_string(bytes: &[u8], at: &mut usize) -> Vec<u8> {
    let length = read_number(bytes, at);
    *at += length;
    bytes[*at - length..*at].to_vec()
}

fn hex(bytes: &[u8]) -> String {
    let digits = b"0123456789abcdef";
    let mut text = String::new();
    for byte in bytes {
        text.push(digits[*byte as usize / 16] as char);
        text.push(digits[*byte as usize % 16] as char);
    }
    text
}

fn wrote(file: Vec<u8>) -> String {
    format!("wrote {} {}", file.len(), hex(&file))
}
