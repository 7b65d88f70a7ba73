//! The steps of a process.

use super::cursor::Cursor;
use super::operands::TEMPLATE;
use crate::error::Error;
use crate::item::{Next, Step, Target};
use engine::{Act, Columns, Filter, Function, Kind, Loop};

impl Cursor<'_> {
    pub fn step(&mut self) -> Result<Step, Error> {
        let (act, body) = match self.passes_word("foreach") {
            true => self.foreach()?,
            false => (self.act()?, None),
        };
        Ok(Step { act, body, next: self.next_node()? })
    }

    fn act(&mut self) -> Result<Act, Error> {
        let read = match self.peek_word() {
            Some("insert") => Cursor::insert,
            Some("delete") => Cursor::delete,
            Some("select") => Cursor::select,
            Some("update") => Cursor::update,
            Some("aggregate") => Cursor::aggregate,
            Some("create") => Cursor::create,
            Some("drop") => Cursor::drop_table,
            _ => return Err(self.unexpected("a step")),
        };
        self.advance();
        read(self)
    }

    fn next_node(&mut self) -> Result<Next, Error> {
        if !self.passes_word("then") {
            return Ok(Next::Below);
        }
        if self.passes_word("end") {
            return Ok(Next::End);
        }
        Ok(Next::To(self.target("a label, \"node\" or \"end\"")?))
    }

    fn insert(&mut self) -> Result<Act, Error> {
        if self.passes_word("table") {
            let read = self.table_variable()?;
            self.word("into")?;
            return Ok(Act::InsertTable { into: self.address()?, read });
        }
        let tuple = self.tuple()?;
        self.word("into")?;
        Ok(Act::Insert { into: self.address()?, tuple })
    }

    fn delete(&mut self) -> Result<Act, Error> {
        let template = self.template()?;
        self.word("from")?;
        let from = self.address()?;
        let filter = self.filter(template)?;
        Ok(Act::Delete { from, filter, bound: self.bound()? })
    }

    fn select(&mut self) -> Result<Act, Error> {
        let tuple = self.selected()?;
        self.word("from")?;
        if self.is_table_variable() {
            let read = self.table_variable()?;
            let filter = self.matching()?;
            return Ok(Act::SelectVariable { read, filter, tuple, bound: self.bound()? });
        }
        let from = self.address()?;
        let filter = self.matching()?;
        Ok(Act::Select { from, filter, tuple, bound: self.bound()? })
    }

    fn matching(&mut self) -> Result<Filter, Error> {
        self.word("matching")?;
        let template = self.template()?;
        self.filter(template)
    }

    fn bound(&mut self) -> Result<u8, Error> {
        self.word("into")?;
        self.table_variable()
    }

    fn update(&mut self) -> Result<Act, Error> {
        let template = self.template()?;
        self.word("in")?;
        let at = self.address()?;
        let filter = self.filter(template)?;
        self.word("to")?;
        Ok(Act::Update { at, filter, tuple: self.tuple()? })
    }

    fn aggregate(&mut self) -> Result<Act, Error> {
        let function = self.function()?;
        self.word("over")?;
        let template = self.template()?;
        self.word("in")?;
        let over = self.address()?;
        let filter = self.filter(template)?;
        self.word("giving")?;
        Ok(Act::Aggregate { over, filter, function, result: self.operand(TEMPLATE)? })
    }

    fn function(&mut self) -> Result<Function, Error> {
        let with_column = match self.peek_word() {
            Some("count") => {
                self.advance();
                return Ok(Function::Count);
            }
            Some("sum") => Function::Sum,
            Some("least") => Function::Least,
            Some("largest") => Function::Largest,
            _ => return Err(self.unexpected("count, sum, least or largest")),
        };
        self.advance();
        self.word("of")?;
        self.word("column")?;
        Ok(with_column(self.number(0..=3, "a column 0..3")?))
    }

    fn create(&mut self) -> Result<Act, Error> {
        let at = self.address()?;
        Ok(Act::Create { at, columns: self.columns()? })
    }

    fn drop_table(&mut self) -> Result<Act, Error> {
        Ok(Act::Drop { at: self.address()? })
    }

    /// A loop, and the target that is its body.
    fn foreach(&mut self) -> Result<(Act, Option<Target>), Error> {
        let parallel = self.passes_word("parallel");
        let template = self.template()?;
        self.word("in")?;
        let read = self.table_variable()?;
        self.word("do")?;
        let body = self.target("the label of the body")?;
        Ok((Act::Loop(Loop { parallel, read, template, body: 0 }), Some(body)))
    }

    /// The kinds of one to four columns.
    pub fn columns(&mut self) -> Result<Columns, Error> {
        if !self.passes_sign("(") {
            return Err(self.unexpected("column kinds \"(..)\""));
        }
        let mut columns = Columns::default();
        loop {
            columns.push(self.kind()?);
            if self.closes(columns.len())? {
                return Ok(columns);
            }
        }
    }

    fn kind(&mut self) -> Result<Kind, Error> {
        let kind = match self.peek_word() {
            Some("Int") => Kind::Int,
            Some("Text") => Kind::Text,
            Some("Loc") => Kind::Loc,
            _ => return Err(self.unexpected("Int, Text or Loc")),
        };
        self.advance();
        Ok(kind)
    }
}
