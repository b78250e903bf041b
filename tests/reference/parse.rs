//! The grammar with quiet failure. A reading is a node, nothing, or a refusal: `Ok(Some(..))`, `Ok(None)`, `Err(number)`.
use super::lex::{token_at, Token};
use super::{MOST_OPEN, MOST_TOKENS};

pub struct Block {
    pub constants: Vec<(String, i64)>,
    pub variables: Vec<String>,
    pub procedure: Option<Box<Procedure>>,
    pub body: Vec<Statement>,
}

pub struct Procedure {
    pub name: String,
    pub arguments: Vec<String>,
    pub block: Block,
    pub later: Vec<Procedure>,
}

pub enum Statement {
    Assign(String, Exp),
    If(Condition, Box<Statement>, Option<Box<Statement>>),
    While(Condition, Box<Statement>),
    Call(String, Vec<Exp>),
    Body(Vec<Statement>),
    Read(Vec<String>),
    Write(Vec<Exp>),
}

pub enum Condition {
    Odd(Exp),
    Compare(Exp, &'static str, Exp),
}

/// Terms joined by `+` and `-`; the first term's sign is a leading one.
pub struct Exp {
    pub negated: bool,
    pub first: Term,
    pub rest: Vec<(&'static str, Term)>,
}

pub struct Term {
    pub first: Factor,
    pub rest: Vec<(&'static str, Factor)>,
}

pub enum Factor {
    Name(String),
    Number(i64),
    Brackets(Box<Exp>),
}

type Reading<T> = Result<Option<T>, u8>;

const COMPARISONS: [&str; 6] = ["=", "<>", "<", ">=", ">", "<="];

struct Reader<'a> {
    text: &'a [u8],
    at: usize,
    taken: usize,
    open: usize,
}

/// The whole text's block; 6 where the main body failed quietly.
pub fn program(text: &[u8]) -> Result<Block, u8> {
    let mut reader = Reader { text, at: 0, taken: 0, open: 0 };
    reader.expect("program")?;
    reader.name()?;
    reader.expect(";")?;
    reader.block()?.ok_or(6)
}

impl Reader<'_> {
    fn look(&self) -> Result<Token, u8> {
        let (token, _) = token_at(self.text, self.at).ok_or(5)?;
        match token {
            _ if self.taken >= MOST_TOKENS => Err(8),
            Token::Bad => Err(3),
            Token::TooBig => Err(4),
            token => Ok(token),
        }
    }

    fn take(&mut self) {
        if let Some((_, end)) = token_at(self.text, self.at) {
            self.at = end;
            self.taken += 1;
        }
    }

    fn sees(&self, mark: &str) -> Result<bool, u8> {
        Ok(matches!(self.look()?, Token::Mark(seen) if seen == mark))
    }

    /// Takes the mark if it is next.
    fn passes(&mut self, mark: &str) -> Result<bool, u8> {
        let seen = self.sees(mark)?;
        if seen {
            self.take();
        }
        Ok(seen)
    }

    fn expect(&mut self, mark: &str) -> Result<(), u8> {
        if self.passes(mark)? {
            Ok(())
        } else {
            Err(5)
        }
    }

    fn name(&mut self) -> Result<String, u8> {
        let Token::Name(name) = self.look()? else { return Err(5) };
        self.take();
        Ok(name)
    }

    fn enter(&mut self) -> Result<(), u8> {
        if self.open >= MOST_OPEN {
            return Err(7);
        }
        self.open += 1;
        Ok(())
    }

    /// One or more, with commas between.
    fn list<T>(&mut self, one: fn(&mut Self) -> Result<T, u8>) -> Result<Vec<T>, u8> {
        let mut members = vec![one(self)?];
        while self.passes(",")? {
            members.push(one(self)?);
        }
        Ok(members)
    }

    /// None or more in brackets.
    fn bracketed<T>(&mut self, one: fn(&mut Self) -> Result<T, u8>) -> Result<Vec<T>, u8> {
        self.expect("(")?;
        let members = if self.sees(")")? { vec![] } else { self.list(one)? };
        self.expect(")")?;
        Ok(members)
    }

    fn constant(&mut self) -> Result<(String, i64), u8> {
        let name = self.name()?;
        self.expect(":=")?;
        let Token::Number(value) = self.look()? else { return Err(5) };
        self.take();
        Ok((name, value))
    }

    fn block(&mut self) -> Reading<Block> {
        let mut constants = vec![];
        if self.passes("const")? {
            constants = self.list(Self::constant)?;
            self.expect(";")?;
        }
        let mut variables = vec![];
        if self.passes("var")? {
            variables = self.list(Self::name)?;
            self.expect(";")?;
        }
        let procedure = if self.sees("procedure")? { self.procedure()?.map(Box::new) } else { None };
        let body = self.body()?;
        Ok(body.map(|body| Block { constants, variables, procedure, body }))
    }

    fn procedure(&mut self) -> Reading<Procedure> {
        self.enter()?;
        self.expect("procedure")?;
        let name = self.name()?;
        let arguments = self.bracketed(Self::name)?;
        self.expect(";")?;
        let block = self.block()?;
        let mut later = Some(vec![]);
        while self.passes(";")? {
            let next = self.procedure()?;
            later = both(later, next);
        }
        self.open -= 1;
        let (Some(block), Some(later)) = (block, later) else { return Ok(None) };
        Ok(Some(Procedure { name, arguments, block, later }))
    }

    /// A body with a quiet member goes on through its list, yields nothing and leaves its `end`.
    fn body(&mut self) -> Reading<Vec<Statement>> {
        self.expect("begin")?;
        let first = self.statement()?;
        let mut members = both(Some(vec![]), first);
        while self.passes(";")? {
            let next = self.statement()?;
            members = both(members, next);
        }
        if members.is_some() {
            self.expect("end")?;
        }
        Ok(members)
    }

    fn statement(&mut self) -> Reading<Statement> {
        self.enter()?;
        let statement = self.statement_inside()?;
        self.open -= 1;
        Ok(statement)
    }

    fn statement_inside(&mut self) -> Reading<Statement> {
        match self.look()? {
            Token::Name(name) => {
                self.take();
                self.expect(":=")?;
                Ok(Some(Statement::Assign(name, self.exp()?)))
            }
            Token::Mark("if") => {
                self.take();
                let condition = self.condition()?;
                self.expect("then")?;
                let then = self.statement()?;
                let other = if self.passes("else")? { self.statement()? } else { None };
                Ok(then.map(|then| Statement::If(condition, Box::new(then), other.map(Box::new))))
            }
            Token::Mark("while") => {
                self.take();
                let condition = self.condition()?;
                self.expect("do")?;
                let inner = self.statement()?;
                Ok(inner.map(|inner| Statement::While(condition, Box::new(inner))))
            }
            Token::Mark("call") => {
                self.take();
                let name = self.name()?;
                Ok(Some(Statement::Call(name, self.bracketed(Self::exp)?)))
            }
            Token::Mark("begin") => Ok(self.body()?.map(Statement::Body)),
            Token::Mark("read") => {
                self.take();
                self.expect("(")?;
                let names = self.list(Self::name)?;
                self.expect(")")?;
                Ok(Some(Statement::Read(names)))
            }
            Token::Mark("write") => {
                self.take();
                self.expect("(")?;
                let exps = self.list(Self::exp)?;
                self.expect(")")?;
                Ok(Some(Statement::Write(exps)))
            }
            _ => Ok(None),
        }
    }

    fn condition(&mut self) -> Result<Condition, u8> {
        if self.passes("odd")? {
            return Ok(Condition::Odd(self.exp()?));
        }
        let left = self.exp()?;
        let sign = self.sign(&COMPARISONS)?.ok_or(5)?;
        Ok(Condition::Compare(left, sign, self.exp()?))
    }

    /// Takes the next token if it is one of these signs.
    fn sign(&mut self, signs: &[&'static str]) -> Reading<&'static str> {
        match self.look()? {
            Token::Mark(mark) if signs.contains(&mark) => {
                self.take();
                Ok(Some(mark))
            }
            _ => Ok(None),
        }
    }

    fn exp(&mut self) -> Result<Exp, u8> {
        let negated = self.sign(&["+", "-"])? == Some("-");
        let first = self.term()?;
        let mut rest = vec![];
        while let Some(sign) = self.sign(&["+", "-"])? {
            rest.push((sign, self.term()?));
        }
        Ok(Exp { negated, first, rest })
    }

    fn term(&mut self) -> Result<Term, u8> {
        let first = self.factor()?;
        let mut rest = vec![];
        while let Some(sign) = self.sign(&["*", "/"])? {
            rest.push((sign, self.factor()?));
        }
        Ok(Term { first, rest })
    }

    fn factor(&mut self) -> Result<Factor, u8> {
        match self.look()? {
            Token::Mark("(") => {
                self.enter()?;
                self.take();
                let inner = self.exp()?;
                self.expect(")")?;
                self.open -= 1;
                Ok(Factor::Brackets(Box::new(inner)))
            }
            Token::Name(name) => {
                self.take();
                Ok(Factor::Name(name))
            }
            Token::Number(value) => {
                self.take();
                Ok(Factor::Number(value))
            }
            _ => Err(5),
        }
    }
}

/// The list with one more member; nothing if either is nothing.
fn both<T>(list: Option<Vec<T>>, next: Option<T>) -> Option<Vec<T>> {
    let (mut list, next) = (list?, next?);
    list.push(next);
    Some(list)
}
