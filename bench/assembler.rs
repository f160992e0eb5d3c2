// An assembler as one would write it in plain Rust: one pass over the bytes, a map of labels, and what names of labels stand for put
// in behind it. It has the grammar of docs/FORMATS.md, stops at the first fault without saying where, and is measured beside `asm`.
use std::{collections::HashMap, env, fs, io::Write, process::ExitCode};

#[derive(Clone, Copy)]
enum Shape { Upper, Jump, Indexed, Branch, Store, Immediate, Shift, Registers, Plain, Word }

fn instruction(name: &str) -> Option<(Shape, u32)> {
    use Shape::*;
    Some(match name {
        "lui" => (Upper, 0x37), "auipc" => (Upper, 0x17), "jal" => (Jump, 0x6f), "jalr" => (Indexed, 0x67),
        "lb" => (Indexed, 0x0003), "lh" => (Indexed, 0x1003), "lw" => (Indexed, 0x2003), "lbu" => (Indexed, 0x4003), "lhu" => (Indexed, 0x5003),
        "beq" => (Branch, 0x0063), "bne" => (Branch, 0x1063), "blt" => (Branch, 0x4063), "bge" => (Branch, 0x5063), "bltu" => (Branch, 0x6063), "bgeu" => (Branch, 0x7063),
        "sb" => (Store, 0x0023), "sh" => (Store, 0x1023), "sw" => (Store, 0x2023),
        "addi" => (Immediate, 0x0013), "slti" => (Immediate, 0x2013), "sltiu" => (Immediate, 0x3013), "xori" => (Immediate, 0x4013), "ori" => (Immediate, 0x6013), "andi" => (Immediate, 0x7013),
        "slli" => (Shift, 0x1013), "srli" => (Shift, 0x5013), "srai" => (Shift, 0x40005013),
        "add" => (Registers, 0x0033), "sub" => (Registers, 0x40000033), "sll" => (Registers, 0x1033), "slt" => (Registers, 0x2033), "sltu" => (Registers, 0x3033),
        "xor" => (Registers, 0x4033), "srl" => (Registers, 0x5033), "sra" => (Registers, 0x40005033), "or" => (Registers, 0x6033), "and" => (Registers, 0x7033),
        "mul" => (Registers, 0x02000033), "mulh" => (Registers, 0x02001033), "mulhsu" => (Registers, 0x02002033), "mulhu" => (Registers, 0x02003033),
        "div" => (Registers, 0x02004033), "divu" => (Registers, 0x02005033), "rem" => (Registers, 0x02006033), "remu" => (Registers, 0x02007033),
        "fence" => (Plain, 0x0ff0000f), "ecall" => (Plain, 0x73), "ebreak" => (Plain, 0x100073), ".word" => (Word, 0),
        _ => return None,
    })
}

// The tokens of a line.
struct Tokens<'a> { rest: &'a [u8] }

fn in_run(byte: u8) -> bool {
    byte.is_ascii_alphanumeric() || matches!(byte, b'_' | b'.' | b'-')
}

impl<'a> Iterator for Tokens<'a> {
    type Item = &'a str;

    fn next(&mut self) -> Option<&'a str> {
        let skipped = self.rest.iter().take_while(|it| matches!(it, b' ' | b'\t' | b'\r')).count();
        self.rest = &self.rest[skipped..];
        if self.rest.first().is_none_or(|&it| it == b'#') { return None; }
        let size = self.rest.iter().take_while(|&&it| in_run(it)).count().max(1);
        let (token, rest) = self.rest.split_at(size);
        self.rest = rest;
        std::str::from_utf8(token).ok()
    }
}

fn is_name(text: &str) -> bool {
    text.len() <= 32 && !text.as_bytes()[0].is_ascii_digit() && text.bytes().all(|it| it.is_ascii_alphanumeric() || it == b'_')
}

fn number(text: &str) -> Option<i64> {
    if let Some(digits) = text.strip_prefix("0x") {
        return (1..=8).contains(&digits.len()).then(|| digits.bytes().all(|it| matches!(it, b'0'..=b'9' | b'a'..=b'f'))).filter(|&it| it)
            .and_then(|_| i64::from_str_radix(digits, 16).ok());
    }
    let digits = text.strip_prefix('-').unwrap_or(text);
    if digits.is_empty() || !digits.bytes().all(|it| it.is_ascii_digit()) || digits.len() > 1 && digits.starts_with('0') || text == "-0" { return None; }
    text.parse().ok()
}

fn within(text: &str, low: i64, high: i64) -> Option<u32> {
    number(text).filter(|it| (low..=high).contains(it)).map(|it| it as u32)
}

fn register(token: Option<&str>) -> Option<u32> {
    let digits = token?.strip_prefix('x')?;
    if digits.is_empty() || !digits.bytes().all(|it| it.is_ascii_digit()) || digits.len() > 1 && digits.starts_with('0') { return None; }
    digits.parse().ok().filter(|&it| it < 32)
}

fn jump(n: u32) -> u32 {
    (n >> 20 & 1) << 31 | (n >> 1 & 0x3ff) << 21 | (n >> 11 & 1) << 20 | (n >> 12 & 0xff) << 12
}

fn branch(n: u32) -> u32 {
    (n >> 12 & 1) << 31 | (n >> 5 & 0x3f) << 25 | (n >> 1 & 0xf) << 8 | (n >> 11 & 1) << 7
}

struct Assembler<'a> { words: Vec<u32>, labels: HashMap<&'a str, usize>, uses: Vec<(usize, &'a str)> }

impl<'a> Assembler<'a> {
    // a target: a number, or a name that is put in at the end
    fn target(&mut self, token: Option<&'a str>, low: i64, high: i64) -> Option<u32> {
        let text = token?;
        if text.as_bytes()[0].is_ascii_digit() || text.starts_with('-') { return within(text, low, high).filter(|it| it % 2 == 0); }
        is_name(text).then(|| self.uses.push((self.words.len(), text)))?;
        Some(0)
    }

    fn instruction(&mut self, name: &str, tokens: &mut Tokens<'a>) -> Option<()> {
        let (shape, base) = instruction(name)?;
        let comma = |tokens: &mut Tokens<'a>| (tokens.next()? == ",").then_some(());
        let word = base | match shape {
            Shape::Upper => { let rd = register(tokens.next())?; comma(tokens)?; rd << 7 | within(tokens.next()?, 0, 1048575)? << 12 }
            Shape::Jump => { let rd = register(tokens.next())?; comma(tokens)?; rd << 7 | jump(self.target(tokens.next(), -1048576, 1048574)?) }
            Shape::Indexed | Shape::Store => {
                let r = register(tokens.next())?;
                comma(tokens)?;
                let n = within(tokens.next()?, -2048, 2047)?;
                if tokens.next()? != "(" { return None; }
                let rs1 = register(tokens.next())?;
                if tokens.next()? != ")" { return None; }
                rs1 << 15 | if matches!(shape, Shape::Store) { r << 20 | (n >> 5 & 0x7f) << 25 | (n & 0x1f) << 7 } else { r << 7 | (n & 0xfff) << 20 }
            }
            Shape::Branch => {
                let rs1 = register(tokens.next())?;
                comma(tokens)?;
                let rs2 = register(tokens.next())?;
                comma(tokens)?;
                rs1 << 15 | rs2 << 20 | branch(self.target(tokens.next(), -4096, 4094)?)
            }
            Shape::Immediate | Shape::Shift | Shape::Registers => {
                let rd = register(tokens.next())?;
                comma(tokens)?;
                let rs1 = register(tokens.next())?;
                comma(tokens)?;
                let last = tokens.next()?;
                rd << 7 | rs1 << 15 | match shape {
                    Shape::Immediate => (within(last, -2048, 2047)? & 0xfff) << 20,
                    Shape::Shift => within(last, 0, 31)? << 20,
                    _ => register(Some(last))? << 20,
                }
            }
            Shape::Plain => 0,
            Shape::Word => within(tokens.next()?, 0, 4294967295)?,
        };
        tokens.next().is_none().then(|| self.words.push(word))
    }

    fn line(&mut self, line: &'a [u8]) -> Option<()> {
        let mut tokens = Tokens { rest: line };
        let Some(mut name) = tokens.next() else { return Some(()) };
        let mut behind = Tokens { rest: tokens.rest };
        if is_name(name) && behind.next() == Some(":") {
            if self.labels.insert(name, self.words.len()).is_some() { return None; }
            tokens = behind;
            let Some(next) = tokens.next() else { return Some(()) };
            name = next;
        }
        self.instruction(name, &mut tokens)
    }

    fn put_in(&mut self) -> Option<()> {
        for &(place, name) in &self.uses {
            let distance = (*self.labels.get(name)? as i64 - place as i64) * 4;
            let is_jump = self.words[place] & 0x7f == 0x6f;
            let most = if is_jump { 1 << 20 } else { 1 << 12 };
            if !(-most..most).contains(&distance) { return None; }
            self.words[place] |= if is_jump { jump(distance as u32) } else { branch(distance as u32) };
        }
        (1..=1048576).contains(&self.words.len()).then_some(())
    }
}

fn main() -> ExitCode {
    let text = fs::read(env::args().nth(1).unwrap_or_default()).unwrap_or_default();
    let mut made = Assembler { words: Vec::new(), labels: HashMap::new(), uses: Vec::new() };
    if text.split(|&it| it == b'\n').any(|it| made.line(it).is_none()) || made.put_in().is_none() { return ExitCode::FAILURE; }
    let bytes: Vec<u8> = made.words.iter().flat_map(|it| it.to_le_bytes()).collect();
    if std::io::stdout().write_all(&bytes).is_err() { return ExitCode::FAILURE; }
    ExitCode::SUCCESS
}
