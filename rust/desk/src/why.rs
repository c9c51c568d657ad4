//! The walk of the question, once more and in plain Rust, for the paths: which names it meets, on which ways it comes to each function
//! block, and where it lacks a type. Its answer is never shown without the proved call's, with which it has to agree.

use crate::blocks::{has_methods, implements};
use crate::desk::Desk;
use std::collections::{HashMap, HashSet, VecDeque};
use typebook::{Category, DeclaredField, Refusal, TypeBook, TypeRef};

/// As many distinct names a walk takes.
const MOST_NAMES: usize = 4_096;
/// As many steps are made in search of places.
const MOST_STEPS: usize = 1_000_000;

/// How the walk of the question ends: at the first of these, in its order.
#[derive(Debug, Clone, Copy, PartialEq, Eq)]
pub enum Outcome {
    /// A function block.
    Yes,
    /// None anywhere.
    No,
    /// Refusal 7: this block's type name isn't in the book.
    Lacking(u32),
    /// Refusal 8: an alias chain of 32 hops or more.
    Chain,
    /// Refusal 9: a name too many.
    TooMany,
}

/// What a name comes to.
#[derive(Debug, Clone, Copy)]
enum End<'b> {
    Type(TypeRef<'b>, Category),
    Lacking(u32),
    Chain,
}

/// A name that the walk met.
#[derive(Debug)]
struct Met<'b> {
    name: &'b str,
    /// The name that it was met in, with the step from there; none for the root.
    from: Option<(usize, Step<'b>)>,
    end: End<'b>,
}

#[derive(Debug, Clone, Copy)]
enum Step<'b> {
    Field(&'b str),
    Element,
}

impl Step<'_> {
    fn onto(self, path: &mut String) {
        match self {
            Step::Field(name) if path.is_empty() => path.push_str(name),
            Step::Field(name) => {
                path.push('.');
                path.push_str(name);
            }
            Step::Element => path.push_str("[..]"),
        }
    }
}

/// A place in the root's value.
#[derive(Debug, Clone, PartialEq, Eq)]
pub struct Place<'b> {
    /// The names on the way, `[..]` for any element; empty for the root itself.
    pub path: String,
    /// The type's name, as it is declared there.
    pub declared: &'b str,
    /// The block of the type that it comes to; for a lacking type, of the one that names it.
    pub block: u32,
}

/// Places, and whether these are all.
#[derive(Debug)]
pub struct Places<'b> {
    /// At least one for each name that was looked for.
    pub shown: Vec<Place<'b>>,
    /// No more were left out.
    pub all: bool,
}

/// The walk over the types that a type is made of, past function blocks, as far as names go.
pub struct Walk<'b> {
    met: Vec<Met<'b>>,
    /// How the walk of the question ends.
    pub outcome: Outcome,
    /// No alias chain was too long, no name one too many.
    pub whole: bool,
}

impl<'b> Walk<'b> {
    /// Walks: names last in, first out, each once.
    pub fn new(desk: &'b Desk, root: TypeRef<'b>) -> Self {
        let types: HashMap<&str, TypeRef> = desk.book.types().map(|t| (t.name(), t)).collect();
        let mut out = Self {
            met: Vec::new(),
            outcome: Outcome::No,
            whole: true,
        };
        let mut seen = HashSet::new();
        let mut due = vec![(root.name(), root.block(), None)];
        while let Some((name, by, from)) = due.pop() {
            if !seen.insert(name) {
                continue;
            }
            let end = match types.get(name) {
                _ if seen.len() > MOST_NAMES => {
                    out.event(Outcome::TooMany);
                    out.met.push(Met {
                        name,
                        from,
                        end: End::Chain,
                    });
                    break;
                }
                None => End::Lacking(by),
                Some(&t) => end(desk, t),
            };
            out.event(match end {
                End::Type(_, Category::FunctionBlock | Category::Program) => Outcome::Yes,
                End::Type(..) => Outcome::No,
                End::Lacking(by) => Outcome::Lacking(by),
                End::Chain => Outcome::Chain,
            });
            let here = out.met.len();
            out.met.push(Met { name, from, end });
            due.extend(parts(end).map(|(step, name, by)| (name, by, Some((here, step)))));
        }
        out
    }

    /// The first event decides; some make the walk less than whole.
    fn event(&mut self, event: Outcome) {
        if self.outcome == Outcome::No {
            self.outcome = event;
        }
        if matches!(event, Outcome::Chain | Outcome::TooMany) {
            self.whole = false;
        }
    }

    /// The number of distinct names met.
    pub fn names(&self) -> usize {
        self.met.len()
    }

    /// The blocks whose type names are lacking, in the order found.
    pub fn lacking(&self) -> Vec<u32> {
        let lacking = self.met.iter().filter_map(|m| match m.end {
            End::Lacking(by) => Some(by),
            _ => None,
        });
        lacking.collect()
    }

    /// Where function blocks lie.
    pub fn function_blocks(&self, most: usize) -> Places<'b> {
        let is = |end| matches!(end, End::Type(_, Category::FunctionBlock | Category::Program));
        self.places(most, is)
    }

    /// Where types are lacking.
    pub fn lacking_places(&self, most: usize) -> Places<'b> {
        self.places(most, |end| matches!(end, End::Lacking(_)))
    }

    /// Where alias chains don't end.
    pub fn chains(&self, most: usize) -> Places<'b> {
        self.places(most, |end| matches!(end, End::Chain))
    }

    /// Where something lies behind which nothing was looked: pointers, references, interfaces.
    pub fn not_followed(&self, most: usize) -> Places<'b> {
        let is = |end| {
            matches!(
                end,
                End::Type(_, Category::Pointer | Category::Reference | Category::Interface)
            )
        };
        self.places(most, is)
    }

    /// The places of the names that come to such an end, in the order of the fields; each name is shown at least once.
    fn places(&self, most: usize, wanted: impl Fn(End<'b>) -> bool) -> Places<'b> {
        let targets: Vec<bool> = self.met.iter().map(|m| wanted(m.end)).collect();
        let ways = self.ways(&targets);
        let mut search = Search {
            walk: self,
            targets: &targets,
            ways: &ways,
            shown: Vec::new(),
            most,
        };
        let all = search.run();
        let mut shown = search.shown;
        let named: HashSet<&str> = shown.iter().map(|p| p.declared).collect();
        let rest = (0..self.met.len()).filter(|&i| targets[i] && !named.contains(self.met[i].name));
        shown.extend(rest.map(|i| self.place(i, self.first_path(i))));
        Places { shown, all }
    }

    /// From each name the steps to those names from which a wanted one is reached.
    fn ways(&self, targets: &[bool]) -> Vec<Vec<(Step<'b>, usize)>> {
        let index: HashMap<&str, usize> = self.met.iter().enumerate().map(|(i, m)| (m.name, i)).collect();
        let step = |(step, name, _): (Step<'b>, &'b str, u32)| index.get(name).map(|&to| (step, to));
        let all: Vec<Vec<(Step, usize)>> = self
            .met
            .iter()
            .map(|m| parts(m.end).filter_map(step).collect())
            .collect();
        let mut back = vec![Vec::new(); all.len()];
        for (from, ways) in all.iter().enumerate() {
            ways.iter().for_each(|&(_, to)| back[to].push(from));
        }
        let mut reaches = targets.to_vec();
        let mut due: VecDeque<usize> = (0..targets.len()).filter(|&i| targets[i]).collect();
        while let Some(to) = due.pop_front() {
            for &from in &back[to] {
                if !reaches[from] {
                    reaches[from] = true;
                    due.push_back(from);
                }
            }
        }
        let kept = |ways: Vec<(Step<'b>, usize)>| ways.into_iter().filter(|&(_, to)| reaches[to]).collect();
        all.into_iter().map(kept).collect()
    }

    /// The way on which the walk came to a name.
    fn first_path(&self, mut at: usize) -> String {
        let mut steps = Vec::new();
        while let Some((from, step)) = self.met[at].from {
            steps.push(step);
            at = from;
        }
        let mut path = String::new();
        steps.iter().rev().for_each(|step| step.onto(&mut path));
        path
    }

    fn place(&self, at: usize, path: String) -> Place<'b> {
        let block = match self.met[at].end {
            End::Type(t, _) => t.block(),
            End::Lacking(by) => by,
            End::Chain => u32::MAX,
        };
        Place {
            path,
            declared: self.met[at].name,
            block,
        }
    }
}

/// A search for places, from the root on, along the ways that lead to one.
struct Search<'w, 'b> {
    walk: &'w Walk<'b>,
    targets: &'w [bool],
    ways: &'w [Vec<(Step<'b>, usize)>],
    shown: Vec<Place<'b>>,
    most: usize,
}

impl Search<'_, '_> {
    /// Whether all places were shown.
    fn run(&mut self) -> bool {
        let mut open = vec![false; self.ways.len()];
        let mut path = String::new();
        // A name that is being looked into, the next of its ways, and how long the path to it is.
        let mut stack = vec![(0, 0, 0)];
        let mut steps = 0;
        while let Some((at, way, length)) = stack.pop() {
            path.truncate(length);
            if way == 0 && self.targets[at] {
                if self.shown.len() == self.most {
                    return false;
                }
                self.shown.push(self.walk.place(at, path.clone()));
            }
            steps += 1;
            if steps > MOST_STEPS {
                return false;
            }
            open[at] = false;
            if let Some(&(step, to)) = self.ways[at].get(way) {
                open[at] = true;
                stack.push((at, way + 1, length));
                if !open[to] {
                    step.onto(&mut path);
                    stack.push((to, 0, path.len()));
                }
            }
        }
        true
    }
}

/// What a type comes to.
fn end<'b>(desk: &Desk, t: TypeRef<'b>) -> End<'b> {
    match desk.resolve(t) {
        Ok(t) => End::Type(t, desk.category(t)),
        Err(Refusal::NotFound { block }) => End::Lacking(block),
        Err(_) => End::Chain,
    }
}

/// What a type is made of: for each part the step to it, its type's name and the block that names it.
fn parts<'b>(end: End<'b>) -> impl Iterator<Item = (Step<'b>, &'b str, u32)> {
    let (element, fields) = match end {
        End::Type(t, Category::Array) => (Some((Step::Element, t.type_name(), t.block())), None),
        End::Type(t, Category::Struct | Category::Union | Category::FunctionBlock) => (None, Some(t)),
        _ => (None, None),
    };
    let fields = fields.into_iter().flat_map(TypeRef::declared_fields);
    let field = |f: DeclaredField<'b>| (Step::Field(f.name), f.type_name, f.block);
    element.into_iter().chain(fields.map(field))
}

/// Why a type counts as a function block: the rule of docs/FORMAT.md, section 2, that makes it one.
pub fn reason(t: TypeRef, book: &TypeBook) -> String {
    let (methods, implements) = (has_methods(book, t.block()), implements(book, t.block()));
    match (methods, implements, t.declared_fields().next()) {
        (true, true, _) => "it has methods and implements an interface".into(),
        (true, false, _) => "it has methods and fields".into(),
        (false, _, Some(first)) => format!("its first field begins at byte {}", first.offset),
        (false, true, None) => "it implements an interface".into(),
        (false, false, None) => format!("{} bytes, of which no field is told", t.size()),
    }
}
