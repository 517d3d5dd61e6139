//! Selected code, read from the lines that code.py writes of a certificate: a word and numbers
//! each.

use plain::Global;
use pra_base::{
    Addr, Base, Block, BlockId, Cond, End, ProcId, ShiftOp, VInstr, VProc, VarId, VarKind,
};
use pra_list::Seq;

struct Words<'a> {
    name: &'a str,
    numbers: Vec<i64>,
    at: usize,
}

impl Words<'_> {
    fn next(&mut self) -> i64 {
        self.at += 1;
        self.numbers[self.at - 1]
    }

    fn var(&mut self) -> VarId {
        VarId(self.next() as u32)
    }

    fn block(&mut self) -> BlockId {
        BlockId(self.next() as u32)
    }

    // By the processor's number of a condition.
    fn cond(&mut self) -> Cond {
        match self.next() {
            2 => Cond::B,
            3 => Cond::Ae,
            4 => Cond::E,
            5 => Cond::Ne,
            6 => Cond::Be,
            7 => Cond::A,
            8 => Cond::S,
            9 => Cond::Ns,
            12 => Cond::L,
            13 => Cond::Ge,
            14 => Cond::Le,
            _ => Cond::G,
        }
    }

    // Base, its number, offset, and the index's number or -1.
    fn addr(&mut self) -> Addr {
        let kind = self.next();
        let number = self.next() as u32;
        let base = match kind {
            0 => Base::Global(number),
            1 => Base::Frame(number),
            2 => Base::Cell(number),
            _ => Base::Via(VarId(number)),
        };
        let offset = self.next() as i32;
        let index = self.next();
        let index = if index < 0 { None } else { Some(VarId(index as u32)) };
        Addr { base, offset, index }
    }

    fn instruction(&mut self) -> VInstr {
        match self.name {
            "set" => VInstr::Set(self.var(), self.next() as i32),
            "copy" => VInstr::Copy(self.var(), self.var()),
            "add" => VInstr::Add(self.var(), self.var()),
            "sub" => VInstr::Sub(self.var(), self.var()),
            "and" => VInstr::And(self.var(), self.var()),
            "or" => VInstr::Or(self.var(), self.var()),
            "xor" => VInstr::Xor(self.var(), self.var()),
            "mul" => VInstr::Mul(self.var(), self.var()),
            "neg" => VInstr::Neg(self.var()),
            "shl" => VInstr::Shift(ShiftOp::Shl, self.var(), self.next() as u32),
            "shr" => VInstr::Shift(ShiftOp::Shr, self.var(), self.next() as u32),
            "sar" => VInstr::Shift(ShiftOp::Sar, self.var(), self.next() as u32),
            "cmp" => VInstr::Cmp(self.var(), self.var()),
            "cmpset" => VInstr::CmpSet(self.cond(), self.var(), self.var(), self.var()),
            "divmod" => VInstr::DivMod(self.var(), self.var(), self.var(), self.var()),
            "check" => VInstr::Check(self.var(), self.next() as i32),
            "checkpos" => VInstr::CheckPos(self.var()),
            "load" => VInstr::Load(self.var(), self.addr()),
            "store" => VInstr::Store(self.addr(), self.var()),
            "addr" => VInstr::Addr(self.var(), self.addr()),
            "push" => VInstr::Push(self.var()),
            "call" => VInstr::Call(ProcId(self.next() as u32)),
            "read" => VInstr::Read(self.var()),
            "write" => VInstr::Write(self.var()),
            "line" => VInstr::Line,
            "clear" => VInstr::Clear,
            name => panic!("unknown instruction {name}"),
        }
    }

    fn end(&mut self) -> End {
        match self.name {
            "jump" => End::Jump(self.block()),
            "branch" => End::Branch(self.cond(), self.block(), self.block()),
            _ => End::Return,
        }
    }
}

fn words(line: &str) -> Words<'_> {
    let mut parts = line.split(' ');
    let name = parts.next().unwrap();
    Words { name, numbers: parts.map(|it| it.parse().unwrap()).collect(), at: 0 }
}

fn seq<T>(items: Vec<T>) -> Seq<T> {
    Seq::from_vec(plain::Vec(items))
}

/// The code of a procedure, as a module has it.
pub struct NamedCode {
    pub code: VProc,
}

/// The procedures of a module.
pub fn read(text: &str) -> Vec<NamedCode> {
    let mut procs: Vec<VProc> = Vec::new();
    let mut vars = Vec::new();
    let mut blocks: Vec<Block> = Vec::new();
    let mut code = Vec::new();
    let mut depth = 0;
    for line in text.lines() {
        let mut it = words(line);
        match it.name {
            "procedure" => procs.push(VProc {
                id: ProcId(procs.len() as u32),
                args: it.next() as u32,
                aggregates: it.next() as u32,
                vars: Seq::new(Global),
                blocks: Seq::new(Global),
            }),
            "param" => vars.push(VarKind::Param(it.next() as u32)),
            "plain" => vars.push(VarKind::Plain),
            "constant" => vars.push(VarKind::Constant(it.next() as i32)),
            "block" => depth = it.next() as u32,
            "jump" | "branch" | "return" => {
                let code = seq(std::mem::take(&mut code));
                blocks.push(Block { depth, code, end: it.end() });
            }
            "done" => {
                let made = procs.last_mut().unwrap();
                made.vars = seq(std::mem::take(&mut vars));
                made.blocks = seq(std::mem::take(&mut blocks));
            }
            _ => code.push(it.instruction()),
        }
    }
    procs.into_iter().map(|code| NamedCode { code }).collect()
}
