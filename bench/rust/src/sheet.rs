//! The sheet: six lines, from edition 2 on those of procedures and from edition 3 on one of ranges, read into trees of formulas and terms,
//! or refused with a number and a byte place.

/// Why and where a sheet is refused.
#[derive(Debug)]
pub struct Refused {
    pub number: u32,
    pub place: usize,
}

/// A slot holds the value of a cell or, after all cells, of a local.
pub type Slot = u16;

pub struct Sheet {
    /// The cells' names, in cell order.
    pub names: Vec<String>,
    /// The lowest and the highest value of each slot: of a cell those of its range, of a local those of 32 bits.
    pub ranges: Vec<[i32; 2]>,
    pub given: Vec<(Slot, i32)>,
    pub procedures: Vec<Procedure>,
    pub formula: Formula,
}

pub struct Procedure {
    /// How many parameters it has.
    parameters: usize,
    pub formula: Formula,
}

pub enum Formula {
    True,
    Atom {
        at: u32,
        comparison: Comparison,
        sides: [Term; 2],
    },
    And(Box<[Formula; 2]>),
    Or(Box<[Formula; 2]>),
    Not {
        at: u32,
        formula: Box<Formula>,
    },
    Imp {
        at: u32,
        parts: Box<[Formula; 2]>,
    },
    Ex {
        local: Slot,
        formula: Box<Formula>,
    },
    Some(Box<Range>),
    All(Box<Range>),
    /// The procedure of that number, with a term for each of its parameters.
    Call {
        procedure: usize,
        arguments: Box<[Term]>,
    },
}

pub struct Range {
    pub at: u32,
    pub local: Slot,
    pub bounds: [Term; 2],
    pub formula: Formula,
}

pub enum Term {
    Constant(i32),
    Slot(Slot),
    /// A parameter of the procedure that it stands in.
    Parameter(u8),
    Element {
        first: Slot,
        length: u16,
        index: Box<Term>,
    },
    Operation(Operation, Box<[Term; 2]>),
}

#[derive(Clone, Copy, PartialEq)]
pub enum Comparison {
    Eq,
    Ne,
    Lt,
    Le,
    Gt,
    Ge,
}

#[derive(Clone, Copy)]
pub enum Operation {
    Add,
    Sub,
    Mul,
    /// Division toward zero, and what it leaves.
    Quo,
    Rem,
    /// Division rounded down, and what it leaves.
    Div,
    Mod,
}

/// A sheet; `strict` is false where an empty range of constants is no fault in any edition.
pub fn read(bytes: &[u8], strict: bool) -> Result<Sheet, Refused> {
    if bytes.len() > 4096 {
        return Err(Refused { number: 2, place: 4096 });
    }
    Reader { bytes, strict, ..Reader::default() }.sheet()
}

type Read<T> = Result<T, Refused>;

fn refused<T>(number: u32, place: usize) -> Read<T> {
    Err(Refused { number, place })
}

#[derive(Default)]
struct Reader<'a> {
    bytes: &'a [u8],
    strict: bool,
    position: usize,
    edition: u64,
    scalars: usize,
    locals: usize,
    /// First cell and length of each array.
    arrays: Vec<(usize, usize)>,
    cells: usize,
    ranges: Vec<[i32; 2]>,
    procedures: Vec<Procedure>,
    /// How many parameters there are in the line that is read.
    parameters: usize,
    tokens: u32,
    /// Locals that have a binder so far, and those in scope here, a bit each.
    bound: u32,
    scope: u32,
}

/// A token's text, sorted out as far as it can be by itself.
enum Word<'a> {
    Constant(i32),
    Name(u8, u64),
    Text(&'a [u8]),
}

struct Token<'a> {
    place: usize,
    at: u32,
    text: &'a [u8],
}

/// Whether a token is written as a number, in good form or not.
fn is_number(text: &[u8]) -> bool {
    matches!(text, [b'0'..=b'9' | b'-', ..])
}

/// A number without minus in good form; one beyond 64 bits counts as the largest.
fn natural(text: &[u8]) -> Option<u64> {
    let good = !text.is_empty() && text.iter().all(u8::is_ascii_digit) && (text[0] != b'0' || text.len() == 1);
    let digit = |n: u64, d: &u8| n.saturating_mul(10).saturating_add(u64::from(d - b'0'));
    good.then(|| text.iter().fold(0, digit))
}

/// A number, minus allowed, in good form and within 32 bits.
fn signed(text: &[u8]) -> Option<i32> {
    match text {
        [b'-', b'0', ..] => None,
        [b'-', rest @ ..] => i32::try_from(-i64::try_from(natural(rest)?).ok()?).ok(),
        _ => i32::try_from(natural(text)?).ok(),
    }
}

/// Whether these are constants, the first above the second.
fn is_empty(bounds: &[Term; 2]) -> bool {
    matches!(bounds, [Term::Constant(low), Term::Constant(high)] if low > high)
}

/// Whether a slot with this range may have the value.
pub fn within([low, high]: [i32; 2], value: i32) -> bool {
    (low..=high).contains(&value)
}

// The lines.
impl<'a> Reader<'a> {
    fn sheet(mut self) -> Read<Sheet> {
        self.edition = self.line("edition", |r| r.number(1, 3))?;
        self.scalars = self.line("scalars", |r| r.number(0, 64))? as usize;
        self.locals = self.line("locals", |r| r.number(0, 32))? as usize;
        self.cells = self.scalars;
        self.line("arrays", |r| r.items(Self::array))?;
        self.ranges = vec![[i32::MIN, i32::MAX]; self.cells + self.locals];
        if self.edition >= 3 {
            self.line("ranges", Self::ranges)?;
        }
        let mut given = Vec::new();
        self.line("given", |r| r.items(|r| r.given(&mut given)))?;
        while self.procedure_follows() {
            let procedure = self.line("proc", Self::procedure)?;
            self.procedures.push(procedure);
        }
        self.parameters = 0;
        let formula = self.line("formula", |r| r.formula(1))?;
        if self.position < self.bytes.len() {
            return refused(5, self.position);
        }
        Ok(Sheet { names: self.names(), ranges: self.ranges, given, procedures: self.procedures, formula })
    }

    fn names(&self) -> Vec<String> {
        let scalars = (0..self.scalars).map(|n| format!("v{n}"));
        let elements = self.arrays.iter().enumerate().flat_map(|(n, &(_, length))| (0..length).map(move |e| format!("a{n}.{e}")));
        scalars.chain(elements).collect()
    }

    fn line<T>(&mut self, key: &str, value: impl FnOnce(&mut Self) -> Read<T>) -> Read<T> {
        let rest = &self.bytes[self.position..];
        if !rest.starts_with(key.as_bytes()) || rest.get(key.len()) != Some(&b'=') {
            return refused(3, self.position);
        }
        self.position += key.len() + 1;
        let value = value(self)?;
        self.want(b'\n')?;
        Ok(value)
    }

    /// Nothing, or items with commas between.
    fn items(&mut self, mut item: impl FnMut(&mut Self) -> Read<()>) -> Read<()> {
        if self.here() == Some(b'\n') {
            return Ok(());
        }
        loop {
            item(self)?;
            if self.here() != Some(b',') {
                return Ok(());
            }
            self.position += 1;
        }
    }

    fn array(&mut self) -> Read<()> {
        let place = self.position;
        let length = self.number(1, 512)? as usize;
        if self.arrays.len() == 16 || self.cells + length > 512 {
            return refused(4, place);
        }
        self.arrays.push((self.cells, length));
        self.cells += length;
        Ok(())
    }

    /// A range for each scalar and then each array, with commas between.
    fn ranges(&mut self) -> Read<()> {
        for scalar in 0..self.scalars {
            self.range_of(scalar, 1)?;
        }
        for array in 0..self.arrays.len() {
            let (first, length) = self.arrays[array];
            self.range_of(first, length)?;
        }
        Ok(())
    }

    /// The range of so many cells; all but that of cell 0 stand after a comma.
    fn range_of(&mut self, first: usize, length: usize) -> Read<()> {
        if first > 0 {
            self.want(b',')?;
        }
        let place = self.position;
        let low = self.value()?;
        self.want(b':')?;
        let high = self.value()?;
        if low > high {
            return refused(14, place);
        }
        self.ranges[first..first + length].fill([low, high]);
        Ok(())
    }

    fn given(&mut self, given: &mut Vec<(Slot, i32)>) -> Read<()> {
        let place = self.position;
        let cell = match self.here() {
            Some(b'v') => {
                self.position += 1;
                let scalar = self.number(0, u64::MAX)?;
                (scalar < self.scalars as u64).then_some(scalar as usize)
            }
            Some(b'a') => {
                self.position += 1;
                let array = self.number(0, u64::MAX)?;
                self.want(b'.')?;
                let element = self.number(0, u64::MAX)?;
                let array = usize::try_from(array).ok().and_then(|n| self.arrays.get(n));
                array.and_then(|&(first, length)| (element < length as u64).then(|| first + element as usize))
            }
            _ => return refused(5, place),
        };
        self.want(b':')?;
        let value = self.value()?;
        let Some(cell) = cell else { return refused(7, place) };
        if given.last().is_some_and(|&(last, _)| cell <= last.into()) {
            return refused(10, place);
        }
        if !within(self.ranges[cell], value) {
            return refused(13, place);
        }
        given.push((cell as Slot, value));
        Ok(())
    }

    fn procedure_follows(&self) -> bool {
        self.edition >= 2 && self.procedures.len() < 16 && self.bytes[self.position..].starts_with(b"proc=")
    }

    fn procedure(&mut self) -> Read<Procedure> {
        self.parameters = self.number(0, 8)? as usize;
        self.want(b':')?;
        Ok(Procedure { parameters: self.parameters, formula: self.formula(1)? })
    }

    fn here(&self) -> Option<u8> {
        self.bytes.get(self.position).copied()
    }

    fn want(&mut self, byte: u8) -> Read<()> {
        if self.here() != Some(byte) {
            return refused(5, self.position);
        }
        self.position += 1;
        Ok(())
    }

    /// The bytes from here on that satisfy the test.
    fn take(&mut self, test: impl Fn(u8) -> bool) -> &'a [u8] {
        let rest = &self.bytes[self.position..];
        let length = rest.iter().position(|&b| !test(b)).unwrap_or(rest.len());
        self.position += length;
        &rest[..length]
    }

    fn run(&mut self) -> &'a [u8] {
        self.take(|b| b.is_ascii_digit() || b == b'-')
    }

    fn number(&mut self, low: u64, high: u64) -> Read<u64> {
        let place = self.position;
        match natural(self.run()) {
            Some(n) if (low..=high).contains(&n) => Ok(n),
            _ => refused(4, place),
        }
    }

    fn value(&mut self) -> Read<i32> {
        let place = self.position;
        signed(self.run()).ok_or(Refused { number: 4, place })
    }
}

// Formulas.
impl<'a> Reader<'a> {
    fn token(&mut self, depth: u32) -> Read<Token<'a>> {
        let place = self.position;
        let text = self.take(|b| b != b' ' && b != b'\n');
        if self.tokens == 1024 || depth == 65 {
            return refused(9, place);
        }
        let at = self.tokens;
        self.tokens += 1;
        Ok(Token { place, at, text })
    }

    fn word(&self, token: &Token<'a>) -> Read<Word<'a>> {
        let Token { place, text, .. } = *token;
        if is_number(text) {
            return signed(text).map(Word::Constant).ok_or(Refused { number: 4, place });
        }
        let letters: &[u8] = if self.edition >= 2 { b"vlap" } else { b"vla" };
        Ok(match text {
            [letter, index @ ..] if letters.contains(letter) => natural(index).map_or(Word::Text(text), |n| Word::Name(*letter, n)),
            _ => Word::Text(text),
        })
    }

    fn formula(&mut self, depth: u32) -> Read<Formula> {
        let token = self.token(depth)?;
        let Token { place, at, .. } = token;
        let Word::Text(word) = self.word(&token)? else { return refused(6, place) };
        let comparison = match word {
            b"true" => return Ok(Formula::True),
            b"and" => return Ok(Formula::And(Box::new([self.part(depth)?, self.part(depth)?]))),
            b"or" => return Ok(Formula::Or(Box::new([self.part(depth)?, self.part(depth)?]))),
            b"imp" => return Ok(Formula::Imp { at, parts: Box::new([self.part(depth)?, self.part(depth)?]) }),
            b"not" => return Ok(Formula::Not { at, formula: Box::new(self.part(depth)?) }),
            b"ex" => {
                let local = self.binder(depth)?;
                return Ok(Formula::Ex { local, formula: Box::new(self.scoped(local, depth)?) });
            }
            b"some" => return Ok(Formula::Some(Box::new(self.range(&token, depth)?))),
            b"all" => return Ok(Formula::All(Box::new(self.range(&token, depth)?))),
            b"call" if self.edition >= 2 => return self.call(depth),
            b"eq" => Comparison::Eq,
            b"ne" => Comparison::Ne,
            b"lt" => Comparison::Lt,
            b"le" => Comparison::Le,
            b"gt" => Comparison::Gt,
            b"ge" => Comparison::Ge,
            _ => return refused(6, place),
        };
        Ok(Formula::Atom { at, comparison, sides: self.terms(depth)? })
    }

    fn call(&mut self, depth: u32) -> Read<Formula> {
        let procedure = self.named(depth)?;
        let parameters = self.procedures[procedure].parameters;
        let arguments = (0..parameters).map(|_| self.operand(depth)).collect::<Read<_>>()?;
        Ok(Formula::Call { procedure, arguments })
    }

    /// The number of the procedure that a call names.
    fn named(&mut self, depth: u32) -> Read<usize> {
        self.want(b' ')?;
        let Token { place, text, .. } = self.token(depth + 1)?;
        match natural(text) {
            Some(number) if number < self.procedures.len() as u64 => Ok(number as usize),
            Some(_) => refused(11, place),
            None if is_number(text) => refused(4, place),
            None => refused(6, place),
        }
    }

    fn part(&mut self, depth: u32) -> Read<Formula> {
        self.want(b' ')?;
        self.formula(depth + 1)
    }

    fn binder(&mut self, depth: u32) -> Read<Slot> {
        self.want(b' ')?;
        let token = self.token(depth + 1)?;
        let place = token.place;
        let Word::Name(b'l', index) = self.word(&token)? else { return refused(6, place) };
        if index >= self.locals as u64 {
            return refused(7, place);
        }
        if self.bound >> index & 1 == 1 {
            return refused(8, place);
        }
        self.bound |= 1 << index;
        Ok((self.cells + index as usize) as Slot)
    }

    fn scoped(&mut self, local: Slot, depth: u32) -> Read<Formula> {
        let bit = 1 << (usize::from(local) - self.cells);
        self.scope |= bit;
        let formula = self.part(depth)?;
        self.scope &= !bit;
        Ok(formula)
    }

    fn range(&mut self, token: &Token<'a>, depth: u32) -> Read<Range> {
        let local = self.binder(depth)?;
        let bounds = self.terms(depth)?;
        if self.strict && self.edition >= 3 && is_empty(&bounds) {
            return refused(17, token.place);
        }
        Ok(Range { at: token.at, local, bounds, formula: self.scoped(local, depth)? })
    }

    fn terms(&mut self, depth: u32) -> Read<[Term; 2]> {
        Ok([self.operand(depth)?, self.operand(depth)?])
    }

    fn operand(&mut self, depth: u32) -> Read<Term> {
        self.want(b' ')?;
        self.term(depth + 1)
    }

    fn term(&mut self, depth: u32) -> Read<Term> {
        let token = self.token(depth)?;
        let rounds = self.edition >= 3;
        let operation = match self.word(&token)? {
            Word::Constant(value) => return Ok(Term::Constant(value)),
            Word::Name(letter, index) => return self.name(letter, index, token.place, depth),
            Word::Text(b"add") => Operation::Add,
            Word::Text(b"sub") => Operation::Sub,
            Word::Text(b"mul") => Operation::Mul,
            Word::Text(b"div") if rounds => Operation::Div,
            Word::Text(b"mod") if rounds => Operation::Mod,
            Word::Text(b"quo") if rounds => Operation::Quo,
            Word::Text(b"rem") if rounds => Operation::Rem,
            Word::Text(b"div") => Operation::Quo,
            Word::Text(b"mod") => Operation::Rem,
            Word::Text(_) => return refused(6, token.place),
        };
        Ok(Term::Operation(operation, Box::new(self.terms(depth)?)))
    }

    fn name(&mut self, letter: u8, index: u64, place: usize, depth: u32) -> Read<Term> {
        let (declared, refusal) = match letter {
            b'v' => (self.scalars, 7),
            b'l' => (self.locals, 7),
            b'a' => (self.arrays.len(), 7),
            _ => (self.parameters, 12),
        };
        if index >= declared as u64 {
            return refused(refusal, place);
        }
        let index = index as usize;
        match letter {
            b'v' => Ok(Term::Slot(index as Slot)),
            b'l' if self.scope >> index & 1 == 0 => refused(8, place),
            b'l' => Ok(Term::Slot((self.cells + index) as Slot)),
            b'a' => {
                let (first, length) = self.arrays[index];
                Ok(Term::Element { first: first as Slot, length: length as u16, index: Box::new(self.operand(depth)?) })
            }
            _ => Ok(Term::Parameter(index as u8)),
        }
    }
}
