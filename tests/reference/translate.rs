//! Names and code.
use super::parse::{Block, Condition, Exp, Factor, Procedure, Statement, Term};
use super::{MOST_CODE, MOST_ROWS};
use crate::protocol::Place;

const LIT: i8 = 0;
const OPR: i8 = 1;
const LOD: i8 = 2;
const STO: i8 = 3;
const STA: i8 = 4;
const CAL: i8 = 5;
const INT: i8 = 6;
const JMP: i8 = 7;
const JPC: i8 = 8;

const LINKS: usize = 3;

#[derive(Clone, Copy, PartialEq)]
enum Kind {
    Constant,
    Variable,
    Procedure,
}

#[derive(Clone)]
struct Row {
    name: String,
    kind: Kind,
    value: i64,
    level: usize,
    address: usize,
    size: usize,
    scope: Vec<String>,
}

struct Translator {
    code: Vec<Place>,
    rows: Vec<Row>,
    scope: Vec<String>,
    level: usize,
}

pub fn code(main: &Block) -> Result<Vec<Place>, u8> {
    let mut translator = Translator { code: vec![], rows: vec![], scope: vec!["#".to_string()], level: 0 };
    translator.block(main, None)?;
    Ok(translator.code)
}

impl Translator {
    fn emit(&mut self, kind: i8, level: usize, operand: usize) -> Result<usize, u8> {
        self.emit_value(kind, level, operand as i64)
    }

    fn emit_value(&mut self, kind: i8, level: usize, operand: i64) -> Result<usize, u8> {
        if self.code.len() >= MOST_CODE {
            return Err(15);
        }
        self.code.push(Place { kind, level: level as u16, operand });
        Ok(self.code.len() - 1)
    }

    fn point_here(&mut self, place: usize) {
        self.code[place].operand = self.code.len() as i64;
    }

    fn declare(&mut self, name: &str, kind: Kind, value: i64, address: usize) -> Result<(), u8> {
        if self.rows.iter().any(|row| row.name == name && row.scope == self.scope) {
            return Err(9);
        }
        self.add_row(name, kind, value, address)
    }

    fn add_row(&mut self, name: &str, kind: Kind, value: i64, address: usize) -> Result<(), u8> {
        if self.rows.len() >= MOST_ROWS {
            return Err(14);
        }
        let (name, scope, level) = (name.to_string(), self.scope.clone(), self.level);
        self.rows.push(Row { name, kind, value, level, address, size: 0, scope });
        Ok(())
    }

    fn find(&self, name: &str) -> Result<&Row, u8> {
        let visible = |row: &Row| row.scope.iter().all(|scope| self.scope.contains(scope));
        self.rows.iter().rev().find(|row| row.name == name && visible(row)).ok_or(10)
    }

    fn find_kind(&self, name: &str, kind: Kind) -> Result<Row, u8> {
        let row = self.find(name)?;
        if row.kind == kind {
            Ok(row.clone())
        } else {
            Err(11)
        }
    }

    fn levels_up(&self, row: &Row) -> Result<usize, u8> {
        self.level.checked_sub(row.level).ok_or(13)
    }

    /// `own` is the row of the procedure whose block this is.
    fn block(&mut self, block: &Block, own: Option<usize>) -> Result<(), u8> {
        let arguments = own.map_or(0, |row| self.rows[row].size);
        let mut address = LINKS + arguments;
        let over = self.emit(JMP, 0, 0)?;
        for (name, value) in &block.constants {
            self.declare(name, Kind::Constant, *value, address)?;
        }
        for name in &block.variables {
            self.declare(name, Kind::Variable, 0, address)?;
            address += 1;
        }
        if let Some(procedure) = &block.procedure {
            self.procedure(procedure, &mut address)?;
        }
        let entry = self.code.len();
        for i in 1..=arguments {
            self.emit(STA, i, LINKS + arguments - i)?;
        }
        self.point_here(over);
        self.emit(INT, 0, address)?;
        if let Some(row) = own {
            self.rows[row].value = entry as i64;
        }
        self.statements(&block.body)?;
        self.emit(OPR, 0, 0)?;
        Ok(())
    }

    fn procedure(&mut self, procedure: &Procedure, address: &mut usize) -> Result<(), u8> {
        let own = self.rows.len();
        self.declare(&procedure.name, Kind::Procedure, 0, *address)?;
        *address += 1;
        self.level += 1;
        self.scope.push(procedure.name.clone());
        for (i, name) in procedure.arguments.iter().enumerate() {
            self.add_row(name, Kind::Variable, 0, LINKS + i)?;
            self.rows[own].size += 1;
        }
        self.block(&procedure.block, Some(own))?;
        self.scope.pop();
        self.level -= 1;
        procedure.later.iter().try_for_each(|later| self.procedure(later, address))
    }

    fn statements(&mut self, statements: &[Statement]) -> Result<(), u8> {
        statements.iter().try_for_each(|statement| self.statement(statement))
    }

    fn statement(&mut self, statement: &Statement) -> Result<(), u8> {
        match statement {
            Statement::Assign(name, exp) => {
                let row = self.find_kind(name, Kind::Variable)?;
                self.exp(exp)?;
                self.store(&row)
            }
            Statement::If(condition, then, other) => {
                self.condition(condition)?;
                let past_then = self.emit(JPC, 0, 0)?;
                self.statement(then)?;
                let past_all = self.emit(JMP, 0, 0)?;
                self.point_here(past_then);
                if let Some(other) = other {
                    self.statement(other)?;
                }
                self.point_here(past_all);
                Ok(())
            }
            Statement::While(condition, inner) => {
                let start = self.code.len();
                self.condition(condition)?;
                let out = self.emit(JPC, 0, 0)?;
                self.statement(inner)?;
                self.emit(JMP, 0, start)?;
                self.point_here(out);
                Ok(())
            }
            Statement::Call(name, exps) => {
                let row = self.find_kind(name, Kind::Procedure)?;
                if row.size != exps.len() {
                    return Err(12);
                }
                exps.iter().try_for_each(|exp| self.exp(exp))?;
                let level = self.levels_up(&row)?;
                self.emit_value(CAL, level, row.value)?;
                Ok(())
            }
            Statement::Body(statements) => self.statements(statements),
            Statement::Read(names) => names.iter().try_for_each(|name| {
                let row = self.find_kind(name, Kind::Variable)?;
                self.emit(OPR, 0, 16)?;
                self.store(&row)
            }),
            Statement::Write(exps) => {
                for exp in exps {
                    self.exp(exp)?;
                    self.emit(OPR, 0, 14)?;
                }
                self.emit(OPR, 0, 15)?;
                Ok(())
            }
        }
    }

    fn store(&mut self, row: &Row) -> Result<(), u8> {
        let level = self.levels_up(row)?;
        self.emit(STO, level, row.address)?;
        Ok(())
    }

    fn condition(&mut self, condition: &Condition) -> Result<(), u8> {
        match condition {
            Condition::Odd(exp) => {
                self.exp(exp)?;
                self.operator("odd")
            }
            Condition::Compare(left, sign, right) => {
                self.exp(left)?;
                self.exp(right)?;
                self.operator(sign)
            }
        }
    }

    fn operator(&mut self, sign: &str) -> Result<(), u8> {
        const BY_NUMBER: [&str; 14] = ["", "neg", "+", "-", "*", "/", "odd", "", "=", "<>", "<", ">=", ">", "<="];
        let number = BY_NUMBER.iter().position(|named| *named == sign).unwrap_or(0);
        self.emit(OPR, 0, number)?;
        Ok(())
    }

    fn exp(&mut self, exp: &Exp) -> Result<(), u8> {
        self.term(&exp.first)?;
        if exp.negated {
            self.operator("neg")?;
        }
        for (sign, term) in &exp.rest {
            self.term(term)?;
            self.operator(sign)?;
        }
        Ok(())
    }

    fn term(&mut self, term: &Term) -> Result<(), u8> {
        self.factor(&term.first)?;
        for (sign, factor) in &term.rest {
            self.factor(factor)?;
            self.operator(sign)?;
        }
        Ok(())
    }

    fn factor(&mut self, factor: &Factor) -> Result<(), u8> {
        match factor {
            Factor::Number(value) => self.emit_value(LIT, 0, *value).map(|_| ()),
            Factor::Brackets(exp) => self.exp(exp),
            Factor::Name(name) => {
                let row = self.find(name)?.clone();
                match row.kind {
                    Kind::Constant => self.emit_value(LIT, 0, row.value).map(|_| ()),
                    Kind::Procedure => Err(11),
                    Kind::Variable => {
                        let level = self.levels_up(&row)?;
                        self.emit(LOD, level, row.address).map(|_| ())
                    }
                }
            }
        }
    }
}
