//! A plain program without proofs, written to compare speeds alone: it reads the files that the proved program reads, and writes the same
//! bytes. `tests/run speed` builds it by `rustc -O`, checks its bytes and prints its times.
//!
//!   reference run whole|pipe PROGRAM LIMITS SCENARIO
//!   reference drive PROGRAM LIMITS SCENARIO
//!   reference bench SEED N
//!   reference blocks WORD..       the same, where each line of `drive` and each block is written at once
//!
//! It has the same form. JSON becomes a tree of values and that the settings. A program becomes tokens and these a tree whose names are
//! numbers. `run whole` walks the tree. The other commands make guarded operations of it, look through moves, drop what nobody reads, place
//! the rest by first fit in the tables of stages, and move packets through these.
//!
//! It takes for granted that the proved program accepts its files. Of the language it has what generated programs use, and little more:
//! constants, arrays, memops, events, handlers, locals, `if`, all calls of arrays, `generate` with delay and target, `SELF`, `Sys.time()`,
//! `+ - & | ^ && || !` and comparisons. There are no functions, groups, `match`, `printf`, `return`, bools as locals, casts, hashes or
//! shifts, and of scenarios no `down`.
use std::collections::{BTreeMap, BTreeSet};
use std::io::{self, BufWriter, Write};
use std::{env, fs, process};

fn fail(why: &str) -> ! {
    eprintln!("reference: {why}");
    process::exit(1)
}

// ---- JSON

enum Json {
    Null,
    Bool,
    Number(u64),
    Text(String),
    List(Vec<Json>),
    Object(BTreeMap<String, Json>),
}

struct JsonReader<'a> {
    bytes: &'a [u8],
    at: usize,
}

impl JsonReader<'_> {
    fn read(text: &str) -> Json {
        let mut reader = JsonReader { bytes: text.as_bytes(), at: 0 };
        let value = reader.value();
        if reader.peek() != 0 {
            fail("JSON goes on");
        }
        value
    }

    /// The next byte that is no blank, 0 at the end.
    fn peek(&mut self) -> u8 {
        while let Some(&byte) = self.bytes.get(self.at) {
            if !matches!(byte, b' ' | b'\n' | b'\r' | b'\t') {
                return byte;
            }
            self.at += 1;
        }
        0
    }

    fn takes(&mut self, byte: u8) -> bool {
        let is = self.peek() == byte;
        self.at += is as usize;
        is
    }

    fn take(&mut self, byte: u8) {
        if !self.takes(byte) {
            fail("not JSON");
        }
    }

    fn word(&mut self, word: &str, value: Json) -> Json {
        if !self.bytes[self.at..].starts_with(word.as_bytes()) {
            fail("not JSON");
        }
        self.at += word.len();
        value
    }

    fn text(&mut self) -> String {
        self.take(b'"');
        let mut text = Vec::new();
        loop {
            let byte = *self.bytes.get(self.at).unwrap_or_else(|| fail("not JSON"));
            self.at += 1;
            match byte {
                b'"' => return String::from_utf8(text).unwrap_or_else(|_| fail("not JSON")),
                b'\\' => fail("an escape"),
                _ => text.push(byte),
            }
        }
    }

    fn number(&mut self) -> Json {
        let mut number = 0u64;
        while let Some(digit @ b'0'..=b'9') = self.bytes.get(self.at) {
            let more = number.checked_mul(10).and_then(|n| n.checked_add(u64::from(digit - b'0')));
            number = more.unwrap_or_else(|| fail("a number that is too large"));
            self.at += 1;
        }
        Json::Number(number)
    }

    fn value(&mut self) -> Json {
        match self.peek() {
            b'{' => {
                self.at += 1;
                let mut object = BTreeMap::new();
                if self.takes(b'}') {
                    return Json::Object(object);
                }
                loop {
                    self.peek();
                    let key = self.text();
                    self.take(b':');
                    object.insert(key, self.value());
                    if !self.takes(b',') {
                        self.take(b'}');
                        return Json::Object(object);
                    }
                }
            }
            b'[' => {
                self.at += 1;
                let mut list = Vec::new();
                if self.takes(b']') {
                    return Json::List(list);
                }
                loop {
                    list.push(self.value());
                    if !self.takes(b',') {
                        self.take(b']');
                        return Json::List(list);
                    }
                }
            }
            b'"' => Json::Text(self.text()),
            b'0'..=b'9' => self.number(),
            b't' => self.word("true", Json::Bool),
            b'f' => self.word("false", Json::Bool),
            b'n' => self.word("null", Json::Null),
            _ => fail("not JSON"),
        }
    }
}

impl Json {
    fn get(&self, key: &str) -> Option<&Json> {
        match self {
            Json::Object(object) => object.get(key),
            _ => fail("no object"),
        }
    }

    fn number(&self) -> u64 {
        match self {
            Json::Number(number) => *number,
            _ => fail("no number"),
        }
    }

    fn text(&self) -> &str {
        match self {
            Json::Text(text) => text,
            _ => fail("no text"),
        }
    }

    fn list(&self) -> &[Json] {
        match self {
            Json::List(list) => list,
            _ => fail("no list"),
        }
    }

    fn number_or(&self, key: &str, default: u64) -> u64 {
        self.get(key).map_or(default, Json::number)
    }

    fn list_or_none(&self, key: &str) -> &[Json] {
        self.get(key).map_or(&[], Json::list)
    }

    fn needed(&self, key: &str) -> &Json {
        self.get(key).unwrap_or_else(|| fail("a key that isn't there"))
    }
}

// ---- limits and scenarios

struct Limits {
    stages: usize,
    tables: usize,
    rows: usize,
    arrays: usize,
    recirc: u64,
}

impl Limits {
    fn read(text: &str) -> Limits {
        let json = JsonReader::read(text);
        Limits {
            stages: json.number_or("stages", 12) as usize,
            tables: json.number_or("tables", 16) as usize,
            rows: json.number_or("rows", 64) as usize,
            arrays: json.number_or("arrays", 4) as usize,
            recirc: json.number_or("recirc", 0),
        }
    }
}

/// The arguments of an event, of which there are eight at most.
#[derive(Clone, Copy)]
struct Args {
    count: usize,
    values: [u64; 8],
}

impl Args {
    fn of(values: impl Iterator<Item = u64>) -> Args {
        let mut args = Args { count: 0, values: [0; 8] };
        for value in values {
            args.values[args.count] = value;
            args.count += 1;
        }
        args
    }

    fn as_slice(&self) -> &[u64] {
        &self.values[..self.count]
    }
}

#[derive(Clone, Copy)]
struct Event {
    id: usize,
    args: Args,
}

struct FileEvent {
    at: u64,
    switch: usize,
    event: Event,
}

enum Step {
    Enter,
    Go(usize),
    Look(usize, u64),
}

struct Scene {
    switches: usize,
    stop: u64,
    /// The latency from a switch to another.
    links: Vec<Vec<Option<u64>>>,
    events: Vec<FileEvent>,
    steps: Vec<Step>,
}

impl Scene {
    fn read(text: &str, program: &Program) -> Scene {
        let json = JsonReader::read(text);
        let events: BTreeMap<&str, usize> = program.events.iter().enumerate().map(|(id, e)| (e.name.as_str(), id)).collect();
        let arrays: BTreeMap<&str, usize> = program.arrays.iter().enumerate().map(|(id, a)| (a.name.as_str(), id)).collect();
        let switches = json.number_or("switches", 1) as usize;
        let mut links = vec![vec![None; switches]; switches];
        for link in json.list_or_none("links") {
            let (a, b) = (link.list()[0].number() as usize, link.list()[1].number() as usize);
            links[a][b] = Some(link.list()[2].number());
            links[b][a] = links[a][b];
        }
        let file_event = |item: &Json| FileEvent {
            at: item.needed("at").number(),
            switch: item.needed("switch").number() as usize,
            event: Event {
                id: events[item.needed("name").text()],
                args: Args::of(item.needed("args").list().iter().map(Json::number)),
            },
        };
        let step = |item: &Json| match item.list() {
            [word] if word.text() == "enter" => Step::Enter,
            [word, slot] if word.text() == "go" => Step::Go(slot.number() as usize),
            [word, array, cell] if word.text() == "look" => Step::Look(arrays[array.text()], cell.number()),
            _ => fail("a step"),
        };
        Scene {
            switches,
            stop: json.needed("stop").number(),
            links,
            events: json.list_or_none("events").iter().map(file_event).collect(),
            steps: json.list_or_none("steps").iter().map(step).collect(),
        }
    }
}

// ---- tokens

#[derive(Clone, Copy, PartialEq)]
enum Token<'a> {
    Name(&'a str),
    Number(u64),
    Sign(&'a str),
    End,
}

const SIGNS: [&str; 23] = [
    "&&", "||", "==", "!=", "<=", ">=", "<<", ">>", "+", "-", "&", "|", "^", "!", "<", ">", "=", "(", ")", "{", "}", ",", ";",
];

fn tokens(text: &str) -> Vec<Token<'_>> {
    let bytes = text.as_bytes();
    let is_in_name = |byte: &u8| byte.is_ascii_alphanumeric() || *byte == b'_';
    let mut tokens = Vec::new();
    let mut at = 0;
    while at < bytes.len() {
        let rest = &text[at..];
        at += if bytes[at].is_ascii_whitespace() {
            1
        } else if rest.starts_with("//") {
            rest.find('\n').unwrap_or(rest.len())
        } else if rest.starts_with("/*") {
            rest.find("*/").unwrap_or_else(|| fail("a comment without an end")) + 2
        } else if is_in_name(&bytes[at]) {
            let length = bytes[at..].iter().take_while(|byte| is_in_name(byte)).count();
            tokens.push(if bytes[at].is_ascii_digit() {
                Token::Number(rest[..length].parse().unwrap_or_else(|_| fail("a number")))
            } else {
                Token::Name(&rest[..length])
            });
            length
        } else if bytes[at] == b'.' {
            tokens.push(Token::Sign("."));
            1
        } else {
            let sign = SIGNS.iter().find(|sign| rest.starts_with(**sign)).unwrap_or_else(|| fail("no token"));
            tokens.push(Token::Sign(sign));
            sign.len()
        };
    }
    tokens
}

// ---- programs

#[derive(Clone, Copy, PartialEq)]
enum Op {
    Add,
    Sub,
    And,
    Or,
    Xor,
    Eq,
    Ne,
    Lt,
    Gt,
    Le,
    Ge,
}

impl Op {
    fn compares(self) -> bool {
        matches!(self, Op::Eq | Op::Ne | Op::Lt | Op::Gt | Op::Le | Op::Ge)
    }

    /// Of numbers within the mask of a width.
    fn apply(self, mask: u64, a: u64, b: u64) -> u64 {
        match self {
            Op::Add => a.wrapping_add(b) & mask,
            Op::Sub => a.wrapping_sub(b) & mask,
            Op::And => a & b,
            Op::Or => a | b,
            Op::Xor => a ^ b,
            Op::Eq => (a == b) as u64,
            Op::Ne => (a != b) as u64,
            Op::Lt => (a < b) as u64,
            Op::Gt => (a > b) as u64,
            Op::Le => (a <= b) as u64,
            Op::Ge => (a >= b) as u64,
        }
    }
}

fn mask_of(width: u64) -> u64 {
    u64::MAX >> (64 - width)
}

#[derive(Clone, Copy)]
enum MemArg {
    Stored,
    Given,
    Fixed(u64),
}

type MemSide = (MemArg, Option<(Op, MemArg)>);

/// What a cell does with the number that it holds and one more: `yes` where the test holds or there is none, else `no`.
#[derive(Clone, Copy)]
struct Memop {
    mask: u64,
    test: Option<(MemArg, Op, MemArg)>,
    yes: MemSide,
    no: MemSide,
}

impl Memop {
    fn simple(mask: u64, gives: MemArg) -> Memop {
        Memop { mask, test: None, yes: (gives, None), no: (gives, None) }
    }

    fn apply(&self, stored: u64, given: u64) -> u64 {
        let value = |arg| match arg {
            MemArg::Stored => stored,
            MemArg::Given => given,
            MemArg::Fixed(number) => number,
        };
        let holds = self.test.is_none_or(|(a, op, b)| op.apply(self.mask, value(a), value(b)) == 1);
        match if holds { self.yes } else { self.no } {
            (a, None) => value(a),
            (a, Some((op, b))) => op.apply(self.mask, value(a), value(b)),
        }
    }
}

/// A call of an array: it answers what `get` gives and stores what `set` gives, both of what the cell held.
struct Call {
    array: usize,
    index: Expr,
    get: Memop,
    get_arg: Expr,
    set: Memop,
    set_arg: Expr,
    answers: bool,
}

enum Expr {
    Number(u64),
    Local(usize),
    Now,
    Me,
    Binary(Op, u64, Box<Expr>, Box<Expr>),
    Call(Box<Call>),
}

enum Stmt {
    Assign(usize, Expr),
    Drop(Expr),
    If(Expr, Vec<Stmt>, Vec<Stmt>),
    Generate { event: usize, args: Vec<Expr>, delay: Expr, to: Option<Expr> },
}

struct Handler {
    locals: usize,
    body: Vec<Stmt>,
}

struct EventDef {
    name: String,
    widths: Vec<u64>,
    handler: Option<Handler>,
}

struct ArrayDef {
    name: String,
    width: u64,
    size: usize,
}

struct Program {
    arrays: Vec<ArrayDef>,
    events: Vec<EventDef>,
}

#[derive(Clone, Copy)]
enum Meaning {
    Const(u64, u64),
    Array(usize),
    Memop(Memop),
    Event(usize),
    Local(usize, u64),
}

/// Reads a program; a later name in scope hides an earlier one.
struct Parser<'a> {
    tokens: Vec<Token<'a>>,
    at: usize,
    scope: Vec<(&'a str, Meaning)>,
    locals: usize,
    program: Program,
}

/// An expression and its width, 0 for numbers that take the width of their place.
type Typed = (Expr, u64);

const OPERATORS: [(&str, Op, usize); 13] = [
    ("||", Op::Or, 0),
    ("&&", Op::And, 1),
    ("==", Op::Eq, 2),
    ("!=", Op::Ne, 2),
    ("<", Op::Lt, 2),
    (">", Op::Gt, 2),
    ("<=", Op::Le, 2),
    (">=", Op::Ge, 2),
    ("|", Op::Or, 3),
    ("^", Op::Xor, 4),
    ("&", Op::And, 5),
    ("+", Op::Add, 6),
    ("-", Op::Sub, 6),
];

fn at_width(typed: Typed, width: u64) -> Expr {
    match typed {
        (Expr::Number(number), 0) => Expr::Number(number & mask_of(width)),
        (expr, own) if own == width => expr,
        _ => fail("a width"),
    }
}

/// At a place that asks for no width.
fn at_free_place(typed: Typed) -> Expr {
    let width = if typed.1 == 0 { 32 } else { typed.1 };
    at_width(typed, width)
}

fn binary(op: Op, a: Typed, b: Typed) -> Typed {
    let width = a.1.max(b.1);
    let gives = if op.compares() { 1 } else { width };
    if let ((Expr::Number(a), 0), (Expr::Number(b), 0)) = (&a, &b) {
        return (Expr::Number(op.apply(u64::MAX, *a, *b)), gives);
    }
    (Expr::Binary(op, mask_of(width), Box::new(at_width(a, width)), Box::new(at_width(b, width))), gives)
}

impl<'a> Parser<'a> {
    fn program(text: &'a str) -> Program {
        let program = Program { arrays: Vec::new(), events: Vec::new() };
        let mut parser = Parser { tokens: tokens(text), at: 0, scope: Vec::new(), locals: 0, program };
        while parser.peek() != Token::End {
            parser.declaration();
        }
        parser.program
    }

    fn peek(&self) -> Token<'a> {
        self.tokens.get(self.at).copied().unwrap_or(Token::End)
    }

    fn next(&mut self) -> Token<'a> {
        self.at += 1;
        self.tokens.get(self.at - 1).copied().unwrap_or(Token::End)
    }

    fn takes(&mut self, token: Token) -> bool {
        let is = self.peek() == token;
        self.at += is as usize;
        is
    }

    fn sign(&mut self, sign: &str) {
        if !self.takes(Token::Sign(sign)) {
            fail(&format!("token {} is no {sign}", self.at + 1));
        }
    }

    fn name(&mut self) -> &'a str {
        match self.next() {
            Token::Name(name) => name,
            _ => fail(&format!("token {} is no name", self.at)),
        }
    }

    fn number(&mut self) -> u64 {
        match self.next() {
            Token::Number(number) => number,
            Token::Name(name) => match self.meaning(name) {
                Meaning::Const(_, value) => value,
                _ => fail("no number"),
            },
            _ => fail(&format!("token {} is no number", self.at)),
        }
    }

    fn meaning(&self, name: &str) -> Meaning {
        let found = self.scope.iter().rev().find(|known| known.0 == name);
        found.unwrap_or_else(|| fail(&format!("{name} is unknown"))).1
    }

    fn width(&mut self) -> u64 {
        if !self.takes(Token::Sign("<<")) {
            return 32;
        }
        let width = self.number();
        self.sign(">>");
        width
    }

    fn int(&mut self) -> u64 {
        if self.name() != "int" {
            fail("no int");
        }
        self.width()
    }

    fn declaration(&mut self) {
        match self.name() {
            "const" => {
                let width = self.int();
                let name = self.name();
                self.sign("=");
                let value = self.number();
                self.sign(";");
                self.scope.push((name, Meaning::Const(width, value)));
            }
            "global" => {
                self.name();
                if self.takes(Token::Sign(".")) {
                    self.name();
                }
                let width = self.width();
                let name = self.name();
                for sign in ["=", ".", "("] {
                    self.sign(sign);
                    if sign != "(" {
                        self.name();
                    }
                }
                let size = self.number() as usize;
                self.sign(")");
                self.sign(";");
                self.scope.push((name, Meaning::Array(self.program.arrays.len())));
                self.program.arrays.push(ArrayDef { name: name.to_string(), width, size });
            }
            "memop" => {
                let name = self.name();
                let (params, widths) = self.params();
                let memop = self.memop(&params, mask_of(widths[0]));
                self.scope.push((name, Meaning::Memop(memop)));
            }
            "event" => {
                let name = self.name();
                let widths = self.params().1;
                self.sign(";");
                self.scope.push((name, Meaning::Event(self.program.events.len())));
                self.program.events.push(EventDef { name: name.to_string(), widths, handler: None });
            }
            "handle" => {
                let name = self.name();
                let Meaning::Event(event) = self.meaning(name) else { fail("no event") };
                let (params, widths) = self.params();
                let outer = self.scope.len();
                self.locals = 0;
                for (name, width) in params.into_iter().zip(widths) {
                    self.local(name, width);
                }
                let body = self.block();
                self.scope.truncate(outer);
                self.program.events[event].handler = Some(Handler { locals: self.locals, body });
            }
            other => fail(&format!("a declaration {other}")),
        }
    }

    fn params(&mut self) -> (Vec<&'a str>, Vec<u64>) {
        let (mut names, mut widths) = (Vec::new(), Vec::new());
        self.sign("(");
        while !self.takes(Token::Sign(")")) {
            widths.push(self.int());
            names.push(self.name());
            self.takes(Token::Sign(","));
        }
        (names, widths)
    }

    fn local(&mut self, name: &'a str, width: u64) -> usize {
        self.scope.push((name, Meaning::Local(self.locals, width)));
        self.locals += 1;
        self.locals - 1
    }

    fn memop(&mut self, params: &[&str], mask: u64) -> Memop {
        self.sign("{");
        let memop = if self.takes(Token::Name("if")) {
            self.sign("(");
            let test = (self.mem_arg(params), self.operator(), self.mem_arg(params));
            self.sign(")");
            self.sign("{");
            let yes = self.mem_side(params);
            self.sign("}");
            let braced = self.takes(Token::Name("else"));
            if braced {
                self.sign("{");
            }
            let no = self.mem_side(params);
            if braced {
                self.sign("}");
            }
            Memop { mask, test: Some(test), yes, no }
        } else {
            let yes = self.mem_side(params);
            Memop { mask, test: None, yes, no: yes }
        };
        self.sign("}");
        memop
    }

    fn mem_side(&mut self, params: &[&str]) -> MemSide {
        if self.name() != "return" {
            fail("no return");
        }
        let first = self.mem_arg(params);
        let more = (self.peek() != Token::Sign(";")).then(|| (self.operator(), self.mem_arg(params)));
        self.sign(";");
        (first, more)
    }

    fn mem_arg(&mut self, params: &[&str]) -> MemArg {
        match self.peek() {
            Token::Name(name) if name == params[1] => self.at += 1,
            Token::Name(name) if name == params[0] => {
                self.at += 1;
                return MemArg::Stored;
            }
            _ => return MemArg::Fixed(self.number()),
        }
        MemArg::Given
    }

    fn operator(&mut self) -> Op {
        let token = self.next();
        OPERATORS.iter().find(|known| Token::Sign(known.0) == token).unwrap_or_else(|| fail("no operator")).1
    }

    fn block(&mut self) -> Vec<Stmt> {
        let outer = self.scope.len();
        let mut body = Vec::new();
        self.sign("{");
        while !self.takes(Token::Sign("}")) {
            body.push(self.statement());
        }
        self.scope.truncate(outer);
        body
    }

    fn statement(&mut self) -> Stmt {
        if self.takes(Token::Name("if")) {
            self.sign("(");
            let condition = at_width(self.expression(0), 1);
            self.sign(")");
            let yes = self.block();
            let no = if !self.takes(Token::Name("else")) {
                Vec::new()
            } else if self.peek() == Token::Name("if") {
                vec![self.statement()]
            } else {
                self.block()
            };
            return Stmt::If(condition, yes, no);
        }
        let statement = match self.peek() {
            Token::Name("generate") => {
                self.at += 1;
                let (mut delay, mut to) = (Expr::Number(0), None);
                let (event, args) = self.sent(&mut delay, &mut to);
                Stmt::Generate { event, args, delay, to }
            }
            Token::Name("int") => {
                let width = self.int();
                let name = self.name();
                self.sign("=");
                let value = at_width(self.expression(0), width);
                Stmt::Assign(self.local(name, width), value)
            }
            Token::Name("Array") => Stmt::Drop(self.access().0),
            _ => {
                let name = self.name();
                let Meaning::Local(local, width) = self.meaning(name) else { fail("no local") };
                self.sign("=");
                Stmt::Assign(local, at_width(self.expression(0), width))
            }
        };
        self.sign(";");
        statement
    }

    fn sent(&mut self, delay: &mut Expr, to: &mut Option<Expr>) -> (usize, Vec<Expr>) {
        if self.takes(Token::Name("Event")) {
            self.sign(".");
            let how = self.name();
            self.sign("(");
            let sent = self.sent(delay, to);
            self.sign(",");
            let value = at_free_place(self.expression(0));
            self.sign(")");
            match how {
                "delay" => *delay = value,
                _ => *to = Some(value),
            }
            return sent;
        }
        let name = self.name();
        let Meaning::Event(event) = self.meaning(name) else { fail("no event") };
        let mut args = Vec::new();
        self.sign("(");
        while !self.takes(Token::Sign(")")) {
            args.push(at_width(self.expression(0), self.program.events[event].widths[args.len()]));
            self.takes(Token::Sign(","));
        }
        (event, args)
    }

    /// An expression of operators that bind as tightly as this level or more.
    fn expression(&mut self, level: usize) -> Typed {
        if level > 6 {
            return self.operand();
        }
        let mut left = self.expression(level + 1);
        while let Token::Sign(sign) = self.peek() {
            let Some((_, op, _)) = OPERATORS.iter().find(|known| known.0 == sign && known.2 == level) else { break };
            self.at += 1;
            let right = self.expression(level + 1);
            left = binary(*op, left, right);
        }
        left
    }

    fn operand(&mut self) -> Typed {
        match self.peek() {
            Token::Name("Array") => return self.access(),
            Token::Number(number) => {
                self.at += 1;
                return (Expr::Number(number), 0);
            }
            Token::Sign("!") => {
                self.at += 1;
                let not = self.operand();
                return binary(Op::Xor, not, (Expr::Number(1), 1));
            }
            Token::Sign("(") => {
                self.at += 1;
                let inner = self.expression(0);
                self.sign(")");
                return inner;
            }
            _ => {}
        }
        match self.name() {
            "SELF" => (Expr::Me, 32),
            "true" => (Expr::Number(1), 1),
            "false" => (Expr::Number(0), 1),
            "Sys" => {
                self.sign(".");
                self.name();
                self.sign("(");
                self.sign(")");
                (Expr::Now, 32)
            }
            name => match self.meaning(name) {
                Meaning::Const(width, value) => (Expr::Number(value), width),
                Meaning::Local(local, width) => (Expr::Local(local), width),
                _ => fail("no value"),
            },
        }
    }

    fn access(&mut self) -> Typed {
        self.at += 1;
        self.sign(".");
        let verb = self.name();
        self.sign("(");
        let name = self.name();
        let Meaning::Array(array) = self.meaning(name) else { fail("no array") };
        let width = self.program.arrays[array].width;
        self.sign(",");
        let index = at_free_place(self.expression(0));
        let keep = Memop::simple(mask_of(width), MemArg::Stored);
        let (mut get, mut get_arg, mut set, mut set_arg) = (keep, Expr::Number(0), keep, Expr::Number(0));
        if matches!(verb, "getm" | "update") {
            (get, get_arg) = self.use_of_memop(width);
        }
        if matches!(verb, "setm" | "update") {
            (set, set_arg) = self.use_of_memop(width);
        }
        if verb == "set" {
            self.sign(",");
            (set, set_arg) = (Memop::simple(mask_of(width), MemArg::Given), at_width(self.expression(0), width));
        }
        self.sign(")");
        let answers = !matches!(verb, "set" | "setm");
        (Expr::Call(Box::new(Call { array, index, get, get_arg, set, set_arg, answers })), width)
    }

    fn use_of_memop(&mut self, width: u64) -> (Memop, Expr) {
        self.sign(",");
        let name = self.name();
        let Meaning::Memop(memop) = self.meaning(name) else { fail("no memop") };
        self.sign(",");
        (memop, at_width(self.expression(0), width))
    }
}

// ---- handlers that run whole

type Cells = Vec<Vec<u64>>;

/// What a handler sends out, to its own switch where `to` is None.
struct Out {
    event: Event,
    delay: u64,
    to: Option<u64>,
}

/// A handler that runs.
struct Run<'a> {
    now: u64,
    me: u64,
    locals: &'a mut Vec<u64>,
    cells: &'a mut Cells,
    outs: &'a mut Vec<Out>,
}

impl Run<'_> {
    fn value(&mut self, expr: &Expr) -> u64 {
        match expr {
            Expr::Number(number) => *number,
            Expr::Local(local) => self.locals[*local],
            Expr::Now => self.now,
            Expr::Me => self.me,
            Expr::Binary(op, mask, a, b) => {
                let a = self.value(a);
                let b = self.value(b);
                op.apply(*mask, a, b)
            }
            Expr::Call(call) => {
                let index = self.value(&call.index);
                let get_arg = self.value(&call.get_arg);
                let set_arg = self.value(&call.set_arg);
                let row = &mut self.cells[call.array];
                let at = (index % row.len() as u64) as usize;
                let stored = row[at];
                row[at] = call.set.apply(stored, set_arg);
                call.get.apply(stored, get_arg)
            }
        }
    }

    fn block(&mut self, body: &[Stmt]) {
        for statement in body {
            match statement {
                Stmt::Assign(local, expr) => self.locals[*local] = self.value(expr),
                Stmt::Drop(expr) => {
                    self.value(expr);
                }
                Stmt::If(condition, yes, no) => {
                    if self.value(condition) == 1 {
                        self.block(yes);
                    } else {
                        self.block(no);
                    }
                }
                Stmt::Generate { event, args, delay, to } => {
                    let args = Args::of(args.iter().map(|arg| self.value(arg)));
                    let delay = self.value(delay);
                    let to = to.as_ref().map(|to| self.value(to));
                    self.outs.push(Out { event: Event { id: *event, args }, delay, to });
                }
            }
        }
    }
}

impl Program {
    fn zero_cells(&self) -> Cells {
        self.arrays.iter().map(|array| vec![0; array.size]).collect()
    }
}

// ---- guarded operations

#[derive(Clone, Copy, PartialEq)]
enum Operand {
    Fixed(u64),
    Field(usize),
}

/// A field and the value that it holds.
type Literal = (usize, u64);

#[derive(Clone)]
enum Act {
    Binary { op: Op, mask: u64, a: Operand, b: Operand, to: usize },
    Move { a: Operand, to: usize },
    Touch { array: usize, index: Operand, get: Memop, get_arg: Operand, set: Memop, set_arg: Operand, to: Option<usize> },
    Generate { slot: usize, event: usize, args: Vec<Operand>, delay: Operand, target: Option<Operand> },
}

impl Act {
    fn operands(&mut self) -> Vec<&mut Operand> {
        match self {
            Act::Binary { a, b, .. } => vec![a, b],
            Act::Move { a, .. } => vec![a],
            Act::Touch { index, get_arg, set_arg, .. } => vec![index, get_arg, set_arg],
            Act::Generate { args, delay, target, .. } => args.iter_mut().chain([delay]).chain(target).collect(),
        }
    }

    fn writes(&mut self) -> Option<&mut usize> {
        match self {
            Act::Binary { to, .. } | Act::Move { to, .. } => Some(to),
            Act::Touch { to, .. } => to.as_mut(),
            Act::Generate { .. } => None,
        }
    }

    fn array(&self) -> Option<usize> {
        match self {
            Act::Touch { array, .. } => Some(*array),
            _ => None,
        }
    }
}

/// An act where all literals of its guard hold. Its level is the first array that may still be called there.
struct Guarded {
    guard: Vec<Literal>,
    level: usize,
    act: Act,
}

impl Guarded {
    fn reads(&mut self) -> Vec<usize> {
        let field = |operand: &mut Operand| match operand {
            Operand::Field(field) => Some(*field),
            Operand::Fixed(_) => None,
        };
        self.guard.iter().map(|literal| literal.0).chain(self.act.operands().into_iter().filter_map(field)).collect()
    }
}

/// The event, the tick, the switch, and then the arguments come in the first fields.
const ARGS: usize = 3;

struct Normal {
    ops: Vec<Guarded>,
    fields: usize,
    guard: Vec<Literal>,
    level: usize,
    slot: usize,
    /// What holds each local.
    held: Vec<Option<Operand>>,
}

impl Normal {
    fn of(program: &Program) -> Normal {
        let args = program.events.iter().map(|event| event.widths.len()).max().unwrap_or(0);
        let mut normal = Normal { ops: Vec::new(), fields: ARGS + args, guard: Vec::new(), level: 0, slot: 0, held: Vec::new() };
        for (id, event) in program.events.iter().enumerate() {
            if let Some(handler) = &event.handler {
                normal.guard = vec![(0, id as u64)];
                (normal.level, normal.slot) = (0, 0);
                let arg = |k| (k < event.widths.len()).then_some(Operand::Field(ARGS + k));
                normal.held = (0..handler.locals).map(arg).collect();
                normal.block(&handler.body);
            }
        }
        normal
    }

    fn push(&mut self, act: Act) {
        self.ops.push(Guarded { guard: self.guard.clone(), level: self.level, act });
    }

    fn field(&mut self) -> usize {
        self.fields += 1;
        self.fields - 1
    }

    fn moved(&mut self, a: Operand) -> usize {
        let to = self.field();
        self.push(Act::Move { a, to });
        to
    }

    fn value(&mut self, expr: &Expr) -> Operand {
        match expr {
            Expr::Number(number) => Operand::Fixed(*number),
            Expr::Local(local) => self.held[*local].unwrap_or_else(|| fail("a local that nothing holds")),
            Expr::Now => Operand::Field(1),
            Expr::Me => Operand::Field(2),
            Expr::Binary(op, mask, a, b) => {
                let (a, b) = (self.value(a), self.value(b));
                let to = self.field();
                self.push(Act::Binary { op: *op, mask: *mask, a, b, to });
                Operand::Field(to)
            }
            Expr::Call(call) => {
                let (index, get_arg, set_arg) = (self.value(&call.index), self.value(&call.get_arg), self.value(&call.set_arg));
                let to = call.answers.then(|| self.field());
                self.push(Act::Touch { array: call.array, index, get: call.get, get_arg, set: call.set, set_arg, to });
                self.level = call.array + 1;
                to.map_or(Operand::Fixed(0), Operand::Field)
            }
        }
    }

    fn condition(&mut self, expr: &Expr) -> usize {
        let value = self.value(expr);
        match (expr, value) {
            (Expr::Number(_) | Expr::Local(_), _) | (_, Operand::Fixed(_)) => self.moved(value),
            (_, Operand::Field(field)) => field,
        }
    }

    fn block(&mut self, body: &[Stmt]) {
        for statement in body {
            match statement {
                Stmt::Assign(local, expr) => {
                    let value = self.value(expr);
                    self.held[*local] = Some(Operand::Field(self.moved(value)));
                }
                Stmt::Drop(expr) => {
                    self.value(expr);
                }
                Stmt::If(condition, yes, no) => {
                    let condition = self.condition(condition);
                    self.branch(condition, yes, no);
                }
                Stmt::Generate { event, args, delay, to } => {
                    let args = args.iter().map(|arg| self.value(arg)).collect();
                    let delay = self.value(delay);
                    let target = to.as_ref().map(|to| self.value(to));
                    self.push(Act::Generate { slot: self.slot, event: *event, args, delay, target });
                    self.slot += 1;
                }
            }
        }
    }

    /// Both branches; then each local that they left in different places is moved into a new field.
    fn branch(&mut self, condition: usize, yes: &[Stmt], no: &[Stmt]) {
        let (outer, level, slot) = (self.held.clone(), self.level, self.slot);
        self.under((condition, 1), |normal| normal.block(yes));
        let held = std::mem::replace(&mut self.held, outer.clone());
        let behind = (std::mem::replace(&mut self.level, level), std::mem::replace(&mut self.slot, slot));
        self.under((condition, 0), |normal| normal.block(no));
        (self.level, self.slot) = (self.level.max(behind.0), self.slot.max(behind.1));
        for local in 0..outer.len() {
            let (Some(_), Some(a), Some(b)) = (outer[local], held[local], self.held[local]) else { continue };
            if a != b {
                let to = self.field();
                self.under((condition, 1), |normal| normal.push(Act::Move { a, to }));
                self.under((condition, 0), |normal| normal.push(Act::Move { a: b, to }));
                self.held[local] = Some(Operand::Field(to));
            }
        }
    }

    fn under(&mut self, literal: Literal, make: impl FnOnce(&mut Normal)) {
        self.guard.push(literal);
        make(self);
        self.guard.pop();
    }

    /// Reads what was moved where it was moved from, where just one move writes the field and its guard stands in the reader's.
    fn look_through_moves(&mut self) {
        let mut writers = vec![Vec::new(); self.fields];
        for (at, op) in self.ops.iter_mut().enumerate() {
            if let Some(field) = op.act.writes() {
                writers[*field].push(at);
            }
        }
        for at in 0..self.ops.len() {
            let (before, rest) = self.ops.split_at_mut(at);
            let Guarded { guard, act, .. } = &mut rest[0];
            for operand in act.operands() {
                let Operand::Field(field) = *operand else { continue };
                if let [writer] = writers[field][..]
                    && writer < at
                    && let Act::Move { a, .. } = before[writer].act
                    && before[writer].guard.iter().all(|literal| guard.contains(literal))
                {
                    *operand = a;
                }
            }
        }
    }

    /// From the back on, so that what only dead operations read is dead too.
    fn drop_dead(&mut self) {
        let mut is_read = vec![false; self.fields];
        let mut live = Vec::new();
        for mut op in self.ops.drain(..).rev() {
            let needed = op.act.array().is_some() || op.act.writes().is_none_or(|field| is_read[*field]);
            if needed {
                for field in op.reads() {
                    is_read[field] = true;
                }
                live.push(op);
            }
        }
        live.reverse();
        self.ops = live;
    }

    /// Numbers the fields that a packet carries from 0 on, so that a packet has no more than it needs.
    fn number_fields(&mut self, inputs: usize) {
        let mut used: BTreeSet<usize> = (0..inputs).collect();
        for op in &mut self.ops {
            used.extend(op.reads());
            used.extend(op.act.writes().copied());
        }
        let registers: BTreeMap<usize, usize> = used.into_iter().enumerate().map(|(register, field)| (field, register)).collect();
        for op in &mut self.ops {
            for literal in &mut op.guard {
                literal.0 = registers[&literal.0];
            }
            for operand in op.act.operands() {
                if let Operand::Field(field) = operand {
                    *field = registers[field];
                }
            }
            if let Some(field) = op.act.writes() {
                *field = registers[field];
            }
        }
        self.fields = registers.len();
    }
}

// ---- tables in stages

/// The first row whose pattern matches acts.
#[derive(Clone)]
struct Row {
    pattern: Vec<Literal>,
    ops: Vec<usize>,
}

type Table = Vec<Row>;

/// Each row of the one with each of the other, unless they clash, and none that stands behind one that always matches first.
fn product(a: &[Row], b: &[Row]) -> Table {
    let mut kept: Table = Vec::new();
    let default = Row { pattern: Vec::new(), ops: Vec::new() };
    let with_default = |rows: &[Row]| rows.iter().cloned().chain([default.clone()]).collect::<Table>();
    for x in &with_default(a) {
        for y in &with_default(b) {
            if x.ops.is_empty() && x.pattern.is_empty() && y.ops.is_empty() && y.pattern.is_empty() {
                continue;
            }
            if x.pattern.iter().any(|l| y.pattern.iter().any(|m| l.0 == m.0 && l.1 != m.1)) {
                continue;
            }
            let mut pattern = x.pattern.clone();
            pattern.extend(y.pattern.iter().filter(|literal| !x.pattern.contains(literal)));
            if !kept.iter().any(|row| row.pattern.iter().all(|literal| pattern.contains(literal))) {
                kept.push(Row { pattern, ops: [&x.ops[..], &y.ops[..]].concat() });
            }
        }
    }
    kept
}

/// What is placed as one: the calls of an array, or one other operation.
#[derive(Default)]
struct Node {
    ops: Vec<usize>,
    is_array: bool,
}

#[derive(Clone, Default)]
struct Stage {
    tables: Vec<Table>,
    arrays: usize,
}

fn nodes(ops: &[Guarded]) -> Vec<Node> {
    let mut nodes: BTreeMap<(usize, usize), Node> = BTreeMap::new();
    for (at, op) in ops.iter().enumerate() {
        let key = op.act.array().map_or((2 * op.level, at), |array| (2 * array + 1, 0));
        let node = nodes.entry(key).or_default();
        node.ops.push(at);
        node.is_array = op.act.array().is_some();
    }
    nodes.into_values().collect()
}

/// The first table of a stage from this one on that has room for these rows, and what it is then.
fn first_fit(stages: &[Stage], from: usize, node: &Node, rows: &[Row], limits: &Limits) -> Option<(usize, usize, Table)> {
    for (k, stage) in stages.iter().enumerate().skip(from) {
        if node.is_array && stage.arrays == limits.arrays {
            continue;
        }
        for t in 0..limits.tables.min(stage.tables.len() + 1) {
            let merged = product(stage.tables.get(t).map_or(&[], |table| table), rows);
            if merged.len() <= limits.rows {
                return Some((k, t, merged));
            }
        }
    }
    None
}

/// Each node in order takes the first place behind all that write what it reads.
fn placed(ops: &mut [Guarded], fields: usize, limits: &Limits) -> Vec<Stage> {
    let mut stages = vec![Stage::default(); limits.stages];
    let mut written = vec![0; fields];
    for node in nodes(ops) {
        let mut rows = Vec::new();
        let mut from = 0;
        for &at in &node.ops {
            let row = Row { pattern: ops[at].guard.clone(), ops: vec![at] };
            rows = if rows.is_empty() { vec![row] } else { product(&rows, &[row]) };
            from = ops[at].reads().into_iter().map(|field| written[field]).fold(from, usize::max);
        }
        let (k, t, table) = first_fit(&stages, from, &node, &rows, limits).unwrap_or_else(|| fail("no room"));
        if t == stages[k].tables.len() {
            stages[k].tables.push(table);
        } else {
            stages[k].tables[t] = table;
        }
        stages[k].arrays += node.is_array as usize;
        for &at in &node.ops {
            if let Some(field) = ops[at].act.writes() {
                written[*field] = written[*field].max(k + 1);
            }
        }
    }
    stages
}

// ---- packets in a pipe of stages

/// A row as it is run: its operations stand in it.
struct Acting {
    pattern: Vec<Literal>,
    acts: Vec<Act>,
}

/// The tables of each stage, and how many fields a packet carries.
struct Layout {
    stages: Vec<Vec<Vec<Acting>>>,
    fields: usize,
}

impl Layout {
    fn of(program: &Program, limits: &Limits) -> Layout {
        let mut normal = Normal::of(program);
        let inputs = ARGS + program.events.iter().map(|event| event.widths.len()).max().unwrap_or(0);
        normal.look_through_moves();
        normal.drop_dead();
        normal.number_fields(inputs);
        let stages = placed(&mut normal.ops, normal.fields, limits);
        let acting = |row: Row| Acting { pattern: row.pattern, acts: row.ops.iter().map(|at| normal.ops[*at].act.clone()).collect() };
        let table = |rows: Table| rows.into_iter().map(acting).collect();
        Layout { stages: stages.into_iter().map(|stage| stage.tables.into_iter().map(table).collect()).collect(), fields: normal.fields }
    }
}

struct Packet {
    event: Event,
    now: u64,
    me: usize,
    fields: Vec<u64>,
    /// What it sends out, in the order of its slots, each behind its slot.
    sent: Vec<(usize, Out)>,
}

impl Packet {
    fn value(&self, operand: Operand) -> u64 {
        match operand {
            Operand::Fixed(number) => number,
            Operand::Field(field) => self.fields[field],
        }
    }

    /// No operation of a stage reads what another of it writes, so each may act at once.
    fn pass(&mut self, stage: &[Vec<Acting>], cells: &mut Cells) {
        for table in stage {
            let matching = |row: &&Acting| row.pattern.iter().all(|&(field, value)| self.fields[field] == value);
            if let Some(row) = table.iter().find(matching) {
                for act in &row.acts {
                    self.act(act, cells);
                }
            }
        }
    }

    fn act(&mut self, act: &Act, cells: &mut Cells) {
        match act {
            Act::Binary { op, mask, a, b, to } => self.fields[*to] = op.apply(*mask, self.value(*a), self.value(*b)),
            Act::Move { a, to } => self.fields[*to] = self.value(*a),
            Act::Touch { array, index, get, get_arg, set, set_arg, to } => {
                let row = &mut cells[*array];
                let at = (self.value(*index) % row.len() as u64) as usize;
                let stored = row[at];
                row[at] = set.apply(stored, self.value(*set_arg));
                if let Some(to) = to {
                    self.fields[*to] = get.apply(stored, self.value(*get_arg));
                }
            }
            Act::Generate { slot, event, args, delay, target } => {
                let args = Args::of(args.iter().map(|arg| self.value(*arg)));
                let event = Event { id: *event, args };
                let out = Out { event, delay: self.value(*delay), to: target.map(|to| self.value(to)) };
                let at = self.sent.partition_point(|sent| sent.0 < *slot);
                self.sent.insert(at, (*slot, out));
            }
        }
    }
}

/// The packet before each stage, and packets that are free.
struct Pipe<'a> {
    layout: &'a Layout,
    cells: Cells,
    slots: Vec<Option<Box<Packet>>>,
    free: Vec<Box<Packet>>,
}

impl<'a> Pipe<'a> {
    fn new(program: &Program, layout: &'a Layout) -> Pipe<'a> {
        let slots = layout.stages.iter().map(|_| None).collect();
        Pipe { layout, cells: program.zero_cells(), slots, free: Vec::new() }
    }

    fn enter(&mut self, event: Event, now: u64, me: usize) {
        let fields = self.layout.fields;
        let mut packet =
            self.free.pop().unwrap_or_else(|| Box::new(Packet { event, now, me, fields: vec![0; fields], sent: Vec::new() }));
        (packet.event, packet.now, packet.me) = (event, now, me);
        packet.sent.clear();
        packet.fields.fill(0);
        packet.fields[..ARGS].copy_from_slice(&[event.id as u64, now & mask_of(32), me as u64]);
        packet.fields[ARGS..ARGS + event.args.count].copy_from_slice(event.args.as_slice());
        self.slots[0] = Some(packet);
    }

    /// The packet before stage k passes it; one that leaves is answered, and may come back as a free one.
    fn go(&mut self, k: usize) -> Option<Box<Packet>> {
        let mut packet = self.slots[k].take()?;
        packet.pass(&self.layout.stages[k], &mut self.cells);
        if k + 1 == self.slots.len() {
            return Some(packet);
        }
        self.slots[k + 1] = Some(packet);
        None
    }

    fn is_taken(&self, k: usize) -> bool {
        self.slots.get(k).is_some_and(Option::is_some)
    }
}

// ---- logs and networks

fn put_event(out: &mut impl Write, program: &Program, event: &Event) -> io::Result<()> {
    out.write_all(program.events[event.id].name.as_bytes())?;
    out.write_all(b"(")?;
    for (k, arg) in event.args.as_slice().iter().enumerate() {
        if k > 0 {
            out.write_all(b",")?;
        }
        write!(out, "{arg}")?;
    }
    out.write_all(b")")
}

fn put_head(out: &mut impl Write, program: &Program, now: u64, me: usize, event: &Event) -> io::Result<()> {
    write!(out, "[{now}] s{me} ")?;
    put_event(out, program, event)?;
    out.write_all(b"\n")
}

fn put_out(out: &mut impl Write, program: &Program, sent: &Out, is_lost: bool) -> io::Result<()> {
    out.write_all(b"  generate ")?;
    put_event(out, program, &sent.event)?;
    write!(out, " delay {}", sent.delay)?;
    match sent.to {
        Some(to) => write!(out, " to {to}")?,
        None => out.write_all(b" here")?,
    }
    out.write_all(if is_lost { b" lost\n" } else { b"\n" })
}

fn put_cells(out: &mut impl Write, program: &Program, switch: usize, cells: &Cells) -> io::Result<()> {
    for (array, row) in program.arrays.iter().zip(cells) {
        for (cell, value) in row.iter().enumerate().filter(|cell| *cell.1 != 0) {
            writeln!(out, "s{switch} {}[{cell}] = {value}", array.name)?;
        }
    }
    Ok(())
}

/// The order in which what waits at a switch may enter: when it is ready, the file's before what was sent, and that by when and where its
/// sender entered and its place among what that sent.
#[derive(PartialEq, Eq, PartialOrd, Ord)]
struct Key {
    ready: u64,
    was_sent: bool,
    tick: u64,
    parent: usize,
    index: usize,
}

/// Where a log is written, and whether each block is written at once.
struct Output<W: Write> {
    to: W,
    by_block: bool,
}

impl<W: Write> Output<W> {
    /// Ends a block.
    fn ends(&mut self) -> io::Result<()> {
        if self.by_block { self.to.flush() } else { Ok(()) }
    }
}

struct Network<'a, W: Write> {
    program: &'a Program,
    limits: &'a Limits,
    scene: &'a Scene,
    out: Output<W>,
    waiting: Vec<BTreeMap<Key, Event>>,
    entered: u64,
    lost: u64,
}

impl<'a, W: Write> Network<'a, W> {
    fn new(program: &'a Program, limits: &'a Limits, scene: &'a Scene, out: Output<W>) -> Self {
        let mut waiting: Vec<BTreeMap<Key, Event>> = (0..scene.switches).map(|_| BTreeMap::new()).collect();
        for (index, e) in scene.events.iter().enumerate() {
            waiting[e.switch].insert(Key { ready: e.at, was_sent: false, tick: 0, parent: 0, index }, e.event);
        }
        Network { program, limits, scene, out, waiting, entered: 0, lost: 0 }
    }

    /// The event that enters a switch at a tick.
    fn take(&mut self, switch: usize, tick: u64) -> Option<Event> {
        let first = self.waiting[switch].first_entry()?;
        if first.key().ready > tick {
            return None;
        }
        self.entered += 1;
        Some(first.remove())
    }

    /// Where and when what is sent arrives; None where no link leads there.
    fn arrival(&self, me: usize, tick: u64, sent: &Out) -> Option<(usize, u64)> {
        let departs = tick.saturating_add(self.limits.stages as u64).saturating_add(self.limits.recirc).saturating_add(sent.delay);
        match sent.to {
            Some(to) if to != me as u64 => {
                let latency = (*self.scene.links[me].get(to as usize)?)?;
                Some((to as usize, departs.saturating_add(latency)))
            }
            _ => Some((me, departs)),
        }
    }

    /// Writes the block of an event, and lets what it sent wait.
    fn tell<'s>(&mut self, tick: u64, me: usize, event: &Event, outs: impl Iterator<Item = &'s Out>) -> io::Result<()> {
        put_head(&mut self.out.to, self.program, tick, me, event)?;
        for (index, sent) in outs.enumerate() {
            let arrival = self.arrival(me, tick, sent);
            put_out(&mut self.out.to, self.program, sent, arrival.is_none())?;
            match arrival {
                Some((switch, ready)) => {
                    self.waiting[switch].insert(Key { ready, was_sent: true, tick, parent: me, index }, sent.event);
                }
                None => self.lost += 1,
            }
        }
        self.out.ends()
    }

    fn end<'s>(&mut self, cells: impl Iterator<Item = &'s Cells>) -> io::Result<()> {
        for (switch, cells) in cells.enumerate() {
            put_cells(&mut self.out.to, self.program, switch, cells)?;
        }
        let pending: usize = self.waiting.iter().map(BTreeMap::len).sum();
        writeln!(self.out.to, "entered {} lost {} pending {pending}", self.entered, self.lost)?;
        self.out.to.flush()
    }

    fn run_whole(&mut self) -> io::Result<()> {
        let mut cells = vec![self.program.zero_cells(); self.scene.switches];
        let (mut locals, mut outs) = (Vec::new(), Vec::new());
        for tick in 0..self.scene.stop {
            for switch in 0..self.scene.switches {
                let Some(event) = self.take(switch, tick) else { continue };
                outs.clear();
                if let Some(handler) = &self.program.events[event.id].handler {
                    locals.clear();
                    locals.extend_from_slice(event.args.as_slice());
                    locals.resize(handler.locals, 0);
                    let now = tick & mask_of(32);
                    let cells = &mut cells[switch];
                    Run { now, me: switch as u64, locals: &mut locals, cells, outs: &mut outs }.block(&handler.body);
                }
                self.tell(tick, switch, &event, outs.iter())?;
            }
        }
        self.end(cells.iter())
    }

    /// In each tick all packets move by one stage, and then one may enter. Behind the last tick those in flight leave.
    fn run_pipe(&mut self, layout: &Layout) -> io::Result<()> {
        let mut pipes: Vec<Pipe> = (0..self.scene.switches).map(|_| Pipe::new(self.program, layout)).collect();
        for tick in 0..self.scene.stop + self.limits.stages as u64 {
            for (switch, pipe) in pipes.iter_mut().enumerate() {
                for k in (0..self.limits.stages).rev() {
                    if let Some(packet) = pipe.go(k) {
                        self.tell(packet.now, packet.me, &packet.event, packet.sent.iter().map(|sent| &sent.1))?;
                        pipe.free.push(packet);
                    }
                }
                if tick < self.scene.stop
                    && let Some(event) = self.take(switch, tick)
                {
                    pipe.enter(event, tick, switch);
                }
            }
        }
        self.end(pipes.iter().map(|pipe| &pipe.cells))
    }
}

// ---- a pipe that is driven by hand

fn put_packet(out: &mut Output<impl Write>, program: &Program, packet: &Packet) -> io::Result<()> {
    put_head(&mut out.to, program, packet.now, packet.me, &packet.event)?;
    packet.sent.iter().try_for_each(|sent| put_out(&mut out.to, program, &sent.1, false))?;
    out.ends()
}

fn drive(program: &Program, limits: &Limits, scene: &Scene, mut out: Output<impl Write>) -> io::Result<()> {
    let layout = Layout::of(program, limits);
    let mut pipe = Pipe::new(program, &layout);
    let mut entered = 0;
    for step in &scene.steps {
        match *step {
            Step::Enter => match scene.events.get(entered) {
                None => out.to.write_all(b"none\n")?,
                Some(_) if pipe.is_taken(0) => out.to.write_all(b"busy\n")?,
                Some(e) => {
                    pipe.enter(e.event, e.at, e.switch);
                    writeln!(out.to, "enter {entered}")?;
                    entered += 1;
                }
            },
            Step::Go(k) if !pipe.is_taken(k) => writeln!(out.to, "empty {k}")?,
            Step::Go(k) if pipe.is_taken(k + 1) => writeln!(out.to, "ahead {k}")?,
            Step::Go(k) => {
                writeln!(out.to, "go {k}")?;
                out.ends()?;
                if let Some(packet) = pipe.go(k) {
                    put_packet(&mut out, program, &packet)?;
                    pipe.free.push(packet);
                }
            }
            Step::Look(array, cell) => {
                let row = &pipe.cells[array];
                let cell = (cell % row.len() as u64) as usize;
                writeln!(out.to, "look {}[{cell}] = {}", program.arrays[array].name, row[cell])?;
            }
        }
        out.ends()?;
    }
    for first in (0..limits.stages).rev() {
        for k in first..limits.stages {
            if let Some(packet) = pipe.go(k) {
                put_packet(&mut out, program, &packet)?;
            }
        }
    }
    put_cells(&mut out.to, program, 0, &pipe.cells)?;
    writeln!(out.to, "entered {entered} left {}", scene.events.len() - entered)?;
    out.to.flush()
}

// ---- generated programs and scenarios

struct Draws(u64);

impl Draws {
    fn below(&mut self, bound: u64) -> u64 {
        self.0 = self.0.wrapping_mul(6_364_136_223_846_793_005).wrapping_add(1_442_695_040_888_963_407);
        (self.0 >> 33) % bound
    }
}

const GENERATED_LIMITS: &str = "{\"stages\":32,\"tables\":64,\"rows\":1024,\"bits\":65536}\n";

fn generated_program(seed: u64) -> String {
    let mut draws = Draws(seed);
    let mut text = String::new();
    for array in 0..8 {
        text += &format!("global Array.t<<32>> a{array} = Array.create({});\n", 1 + draws.below(64));
    }
    text += "memop plus(int stored, int x) { return stored + x; }\n";
    for event in 0..8 {
        text += &format!("event e{event}(int i, int v);\n");
    }
    for event in 0..8 {
        text += &format!("handle e{event}(int i, int v) {{\n");
        for array in 0..8 {
            match draws.below(4) {
                0 => {}
                1 => text += &format!("  v = Array.getm(a{array}, i, plus, v);\n"),
                2 => text += &format!("  Array.setm(a{array}, i, plus, v);\n"),
                _ => {
                    let above = draws.below(1000);
                    text += &format!("  if (v > {above}) {{ v = Array.update(a{array}, i, plus, 1, plus, v); }}\n");
                }
            }
        }
        let crosses = draws.below(2) == 1;
        let delayed = format!("Event.delay(e{}(i + 1, v), {})", draws.below(8), draws.below(100));
        text += &if crosses { format!("  generate Event.locate({delayed}, SELF ^ 1);\n") } else { format!("  generate {delayed};\n") };
        text += "}\n";
    }
    text
}

fn generated_scene(seed: u64, count: u64) -> String {
    let mut draws = Draws(seed);
    let mut text = String::from("{\"switches\":4,\"stop\":1000,\"links\":[[0,1,1],[2,3,2]],\"events\":[");
    for item in 0..count {
        let (at, switch, event) = (draws.below(100), draws.below(4), draws.below(8));
        let (index, value) = (draws.below(1000), draws.below(1000));
        let comma = if item > 0 { "," } else { "" };
        text += &format!("{comma}{{\"at\":{at},\"switch\":{switch},\"name\":\"e{event}\",\"args\":[{index},{value}]}}");
    }
    text + "]}\n"
}

/// Counts and hashes what is written, and keeps the last line.
struct Tally {
    bytes: u64,
    hash: u64,
    line: Vec<u8>,
    has_ended: bool,
}

impl Write for Tally {
    fn write(&mut self, bytes: &[u8]) -> io::Result<usize> {
        for &byte in bytes {
            self.hash = (self.hash ^ u64::from(byte)).wrapping_mul(1_099_511_628_211);
            if self.has_ended {
                self.line.clear();
            }
            self.has_ended = byte == b'\n';
            if !self.has_ended {
                self.line.push(byte);
            }
        }
        self.bytes += bytes.len() as u64;
        Ok(bytes.len())
    }

    fn flush(&mut self) -> io::Result<()> {
        Ok(())
    }
}

fn bench(seed: u64, count: u64, mut out: impl Write) -> io::Result<()> {
    let program = Parser::program(&generated_program(seed));
    let limits = Limits::read(GENERATED_LIMITS);
    let scene = Scene::read(&generated_scene(seed, count), &program);
    let layout = Layout::of(&program, &limits);
    let mut tally = Tally { bytes: 0, hash: 14_695_981_039_346_656_037, line: Vec::new(), has_ended: true };
    Network::new(&program, &limits, &scene, Output { to: &mut tally, by_block: false }).run_pipe(&layout)?;
    let line = String::from_utf8_lossy(&tally.line);
    writeln!(out, "bench seed {seed} n {count} {line} bytes {} fnv {:016x}", tally.bytes, tally.hash)?;
    out.flush()
}

fn run(words: &[&str]) -> io::Result<()> {
    let (by_block, words) = if let ["blocks", rest @ ..] = words { (true, rest) } else { (false, words) };
    let out = BufWriter::with_capacity(65_536, io::stdout().lock());
    if let ["bench", seed, count] = words {
        let number = |word: &str| word.parse().unwrap_or_else(|_| fail("no number"));
        return bench(number(seed), number(count), out);
    }
    let (command, program, limits, scene) = match words {
        ["run", command @ ("whole" | "pipe"), program, limits, scene] => (*command, program, limits, scene),
        [command @ "drive", program, limits, scene] => (*command, program, limits, scene),
        _ => fail("usage"),
    };
    let out = Output { to: out, by_block };
    let program = Parser::program(&fs::read_to_string(program)?);
    let limits = Limits::read(&fs::read_to_string(limits)?);
    let scene = Scene::read(&fs::read_to_string(scene)?, &program);
    match command {
        "whole" => Network::new(&program, &limits, &scene, out).run_whole(),
        "pipe" => Network::new(&program, &limits, &scene, out).run_pipe(&Layout::of(&program, &limits)),
        _ => drive(&program, &limits, &scene, out),
    }
}

fn main() {
    let words: Vec<String> = env::args().skip(1).collect();
    let words: Vec<&str> = words.iter().map(String::as_str).collect();
    if let Err(error) = run(&words) {
        fail(&error.to_string());
    }
}
