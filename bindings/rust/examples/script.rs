//! Reads a script from standard input, in the language of docs/SCRIPT.md, runs it, and prints what it prints.
//!
//! It keeps the nodes of the stack in the form in which it reads them, since `replace` takes them off the stack long
//! before they come into the tree.
use std::collections::VecDeque;
use std::fmt;
use std::io::{self, BufRead, Write};
use std::num::NonZeroU16;
use std::ops::Range;
use std::process::ExitCode;
use std::thread;
use typst_tree::{Builder, Error, FileId, Node, Nodes, Span, SyntaxKind, Tree};

/// A node on the stack: its content and the messages of its warnings, the outermost last.
struct Made {
    what: What,
    warnings: Vec<String>,
}

enum What {
    Leaf(SyntaxKind, String),
    Error(String, String),
    Inner(SyntaxKind, Vec<Made>),
}

/// What nodes can be built on.
trait Stack {
    fn leaf(&mut self, kind: SyntaxKind, text: &str) -> Result<(), Error>;
    fn error(&mut self, message: &str, text: &str) -> Result<(), Error>;
    fn wrap(&mut self, kind: SyntaxKind, count: usize) -> Result<(), Error>;
    fn warn(&mut self, message: &str) -> Result<(), Error>;
}

macro_rules! stack {
    ($type:ty) => {
        impl Stack for $type {
            fn leaf(&mut self, kind: SyntaxKind, text: &str) -> Result<(), Error> {
                self.leaf(kind, text).map(drop)
            }
            fn error(&mut self, message: &str, text: &str) -> Result<(), Error> {
                self.error(message, text).map(drop)
            }
            fn wrap(&mut self, kind: SyntaxKind, count: usize) -> Result<(), Error> {
                self.wrap(kind, count).map(drop)
            }
            fn warn(&mut self, message: &str) -> Result<(), Error> {
                self.warn(message).map(drop)
            }
        }
    };
}

stack!(Builder);
stack!(Nodes<'_>);

impl Made {
    fn new(what: What) -> Made {
        Made {
            what,
            warnings: Vec::new(),
        }
    }

    /// Builds the node.
    fn build(&self, stack: &mut dyn Stack) -> Result<(), Error> {
        match &self.what {
            What::Leaf(kind, text) => stack.leaf(*kind, text)?,
            What::Error(message, text) => stack.error(message, text)?,
            What::Inner(kind, children) => {
                for child in children {
                    child.build(stack)?;
                }
                stack.wrap(*kind, children.len())?;
            }
        }
        self.warnings.iter().try_for_each(|message| stack.warn(message))
    }
}

/// What is kept for `run`.
enum Request {
    Replace(Vec<usize>, Range<usize>, Vec<Made>),
    Find(Span),
}

/// Why a script stops.
enum Fault {
    BadCommand,
    Read,
    Write,
    Memory,
    Overflow,
}

impl From<Error> for Fault {
    fn from(error: Error) -> Fault {
        match error {
            Error::Memory => Fault::Memory,
            Error::Overflow => Fault::Overflow,
            _ => Fault::BadCommand,
        }
    }
}

impl From<io::Error> for Fault {
    fn from(_: io::Error) -> Fault {
        Fault::Write
    }
}

/// A path as scripts write it.
struct Path<'p>(&'p [usize]);

impl fmt::Display for Path<'_> {
    fn fmt(&self, f: &mut fmt::Formatter<'_>) -> fmt::Result {
        let words: Vec<_> = self.0.iter().map(usize::to_string).collect();
        f.write_str(if words.is_empty() { "-" } else { "" })?;
        f.write_str(&words.join("."))
    }
}

/// A number in decimal digits that fits.
fn number<N: TryFrom<u64>>(word: &str) -> Result<N, Fault> {
    let is_plain = word.bytes().all(|byte| byte.is_ascii_digit());
    let number: Option<u64> = word.parse().ok().filter(|_| is_plain);
    number
        .and_then(|number| N::try_from(number).ok())
        .ok_or(Fault::BadCommand)
}

/// The kind of a leaf or an inner node.
fn kind(word: &str) -> Result<SyntaxKind, Fault> {
    let kind = SyntaxKind::from_u8(number(word)?).filter(|kind| *kind != SyntaxKind::Error);
    kind.ok_or(Fault::BadCommand)
}

fn file(word: &str) -> Result<FileId, Fault> {
    NonZeroU16::new(number(word)?).ok_or(Fault::BadCommand)
}

fn path(word: &str) -> Result<Vec<usize>, Fault> {
    match word {
        "-" => Ok(Vec::new()),
        _ => word.split('.').map(number).collect(),
    }
}

/// Exactly `N` words with one blank between them.
fn words<const N: usize>(rest: &str) -> Result<[&str; N], Fault> {
    let words: Vec<_> = rest.split(' ').collect();
    words.try_into().map_err(|_| Fault::BadCommand)
}

fn parts(text: &str, between: char) -> Result<(&str, &str), Fault> {
    text.split_once(between).ok_or(Fault::BadCommand)
}

/// A script that is being run.
struct Script<W> {
    out: W,
    stack: Vec<Made>,
    tree: Option<Tree>,
    // Whether the tree has numbers that come from the script.
    is_numbered: bool,
    queue: VecDeque<Request>,
}

impl<W: Write> Script<W> {
    /// Runs a line.
    fn line(&mut self, line: &str) -> Result<(), Fault> {
        let (command, rest) = match line.split_once(' ') {
            Some((command, rest)) => (command, Some(rest)),
            None => (line, None),
        };
        match (command, rest) {
            ("", None) => Ok(()),
            ("root", None) => self.root(),
            ("run", None) => self.run(),
            ("show", None) => self.show(),
            ("leaf", Some(rest)) => {
                let (of, text) = parts(rest, ' ')?;
                self.push(What::Leaf(kind(of)?, text.to_string()))
            }
            ("error", Some(rest)) => {
                let (message, text) = parts(rest, '\t')?;
                self.push(What::Error(message.to_string(), text.to_string()))
            }
            ("inner", Some(rest)) => {
                let [of, count] = words(rest)?;
                let of = kind(of)?;
                let children = self.pop(number(count)?)?;
                self.push(What::Inner(of, children))
            }
            ("warn", Some(message)) => {
                let top = self.stack.last_mut().ok_or(Fault::BadCommand)?;
                top.warnings.push(message.to_string());
                Ok(())
            }
            ("number", Some(rest)) => self.number(words(rest)?),
            ("replace", Some(rest)) => {
                let [at, from, to, count] = words(rest)?;
                let (at, range) = (path(at)?, number(from)?..number(to)?);
                let nodes = self.pop(number(count)?)?;
                self.queue.push_back(Request::Replace(at, range, nodes));
                Ok(())
            }
            ("find", Some(rest)) => {
                let [of, wanted] = words(rest)?;
                file(of)?;
                let span = Span::from_number(number(wanted)?).ok_or(Fault::BadCommand)?;
                self.queue.push_back(Request::Find(span));
                Ok(())
            }
            _ => Err(Fault::BadCommand),
        }
    }

    fn push(&mut self, what: What) -> Result<(), Fault> {
        self.stack.push(Made::new(what));
        Ok(())
    }

    fn pop(&mut self, count: usize) -> Result<Vec<Made>, Fault> {
        let start = self.stack.len().checked_sub(count).ok_or(Fault::BadCommand)?;
        Ok(self.stack.split_off(start))
    }

    fn root(&mut self) -> Result<(), Fault> {
        if self.stack.len() != 1 {
            return Err(Fault::BadCommand);
        }
        let mut builder = Builder::new()?;
        self.stack[0].build(&mut builder)?;
        // The tree is held with numbers that `show` doesn't show.
        self.tree = Some(builder.number(FileId::MIN, Span::FULL).map_err(Error::from)?);
        self.is_numbered = false;
        self.stack.clear();
        Ok(())
    }

    fn number(&mut self, [of, low, high]: [&str; 3]) -> Result<(), Fault> {
        let (of, within) = (file(of)?, number(low)?..number(high)?);
        if within.start < Span::FULL.start || Span::FULL.end < within.end {
            return Err(Fault::BadCommand);
        }
        let tree = self.tree.as_mut().ok_or(Fault::BadCommand)?;
        match tree.renumber(of, within) {
            Ok(()) => self.is_numbered = true,
            Err(Error::Unnumberable) => writeln!(self.out, "refused")?,
            Err(error) => return Err(error.into()),
        }
        Ok(())
    }

    fn run(&mut self) -> Result<(), Fault> {
        let tree = self
            .tree
            .as_mut()
            .filter(|_| self.is_numbered)
            .ok_or(Fault::BadCommand)?;
        for request in self.queue.drain(..) {
            let reply = match request {
                Request::Replace(at, range, nodes) => replace(tree, &at, range, &nodes),
                Request::Find(span) => find(tree, span),
            };
            writeln!(self.out, "{reply}")?;
        }
        Ok(())
    }

    fn show(&mut self) -> Result<(), Fault> {
        let tree = self.tree.as_ref().ok_or(Fault::BadCommand)?;
        for node in tree.root().preorder() {
            let (number, bound) = if self.is_numbered {
                (node.span().number(), node.upper())
            } else {
                detached(&node)
            };
            let (level, kind) = (2 * node.path().len(), node.kind().to_u8());
            write!(self.out, "{:level$}{kind} {number} {bound} {}", "", node.len())?;
            let text = node.leaf_text();
            if !text.is_empty() {
                write!(self.out, " {text}")?;
            }
            writeln!(self.out)?;
        }
        Ok(())
    }
}

/// The number and the bound of a node without numbers.
fn detached(node: &Node<'_>) -> (u64, u64) {
    (1, if node.is_inner() { 0 } else { 2 })
}

fn replace(tree: &mut Tree, at: &[usize], range: Range<usize>, made: &[Made]) -> String {
    let done = tree.replace(at, range, |nodes| made.iter().try_for_each(|node| node.build(nodes)));
    match done {
        Ok(done) => format!(
            "done window {}..{} tried {}",
            done.window.start, done.window.end, done.tried
        ),
        Err(Error::Unnumberable) => "refused".to_string(),
        Err(Error::Overflow) => "overflow".to_string(),
        Err(Error::Memory) => "no memory".to_string(),
        Err(_) => "misfit".to_string(),
    }
}

fn find(tree: &Tree, span: Span) -> String {
    let found = tree.find(span).and_then(|found| match found {
        Some(node) => Ok(Some((Path(node.path()).to_string(), node.offset()?))),
        None => Ok(None),
    });
    match found {
        Ok(Some((path, offset))) => format!("found {path} offset {offset}"),
        Ok(None) => "not found".to_string(),
        Err(_) => "no memory".to_string(),
    }
}

/// Runs all lines. If one stops the script, returns its number and why.
fn script() -> Result<(), (usize, Fault)> {
    let mut script = Script {
        out: io::stdout().lock(),
        stack: Vec::new(),
        tree: None,
        is_numbered: false,
        queue: VecDeque::new(),
    };
    for (before, line) in io::stdin().lock().split(b'\n').enumerate() {
        let text = line.ok().and_then(|line| String::from_utf8(line).ok());
        let done = text.ok_or(Fault::Read).and_then(|text| script.line(&text));
        done.map_err(|fault| (before + 1, fault))?;
    }
    Ok(())
}

fn main() -> ExitCode {
    // A deep tree needs a deep stack.
    let large = thread::Builder::new().stack_size(1 << 30);
    let done = large.spawn(script).map(|running| running.join());
    let Ok(Ok(done)) = done else {
        eprintln!("the script was not done");
        return ExitCode::FAILURE;
    };
    let Err((line, fault)) = done else {
        return ExitCode::SUCCESS;
    };
    let (told, status) = match fault {
        Fault::BadCommand => (format!("line {line}: bad command"), 2),
        Fault::Read => ("cannot read".to_string(), 1),
        Fault::Write => ("cannot write".to_string(), 1),
        Fault::Memory => ("no memory".to_string(), 1),
        Fault::Overflow => ("overflow".to_string(), 1),
    };
    eprintln!("{told}");
    ExitCode::from(status)
}
