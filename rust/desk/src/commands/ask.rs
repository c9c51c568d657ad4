//! `missing`, `plan` and `why`: what a type is made of.

use super::{after, counted};
use crate::args::Call;
use crate::blocks::{holder, is_field, word};
use crate::desk::Desk;
use crate::json::Json;
use crate::told::{Failure, Told};
use crate::why::{Outcome, Place, Places, Walk, reason};
use std::collections::HashSet;
use std::fmt::Write;
use typebook::{Category, Plan, Refusal, TypeRef};

/// As many places are shown of each kind.
const MOST_PLACES: usize = 1_000;
const YES: &str = "read the memory, alter it, write it back";
const NO: &str = "a fresh image may be sent";

/// Who asks for a block's type name.
fn asker(desk: &Desk, block: u32) -> String {
    let book = &desk.book;
    if is_field(book, block) {
        return format!("the field {} of {}", book.name(block), book.name(holder(book, block)));
    }
    let category = book.root(u64::from(block)).map(|t| desk.category(t));
    let kind = category.map_or("type", word);
    format!("the {kind} {}", book.name(block))
}

/// A path, or words for the root itself.
fn at(path: &str) -> &str {
    match path {
        "" => "(the whole)",
        path => path,
    }
}

/// What a book lacks for a type.
pub fn missing(desk: &Desk, name: &str) -> Result<Told, Failure> {
    let root = desk.find(name)?;
    let missing = desk.missing(root)?;
    let walk = Walk::new(desk, root);
    if walk.lacking() != missing.blocks {
        return Err(differs("the list"));
    }
    let places = walk.lacking_places(MOST_PLACES);
    let names: HashSet<&str> = missing.blocks.iter().map(|&b| desk.book.type_name(b)).collect();
    let met = counted(missing.count as u64, "name");
    let mut text = match names.len() {
        0 if missing.whole => format!("{name} lacks nothing ({met} met)\n"),
        0 => format!("{name} lacks nothing of the {met} met\n"),
        n => format!("{name} lacks {} ({met} met)\n", counted(n as u64, "type")),
    };
    text += &lacking_lines(desk, &places);
    let json = Json::object([
        ("type", Json::text(name)),
        ("missing", lacking_json(desk, &places)),
        ("whole", Json::Bool(missing.whole)),
        ("names", Json::count(missing.count)),
    ]);
    let mut told = Told::new(text, json);
    if !missing.whole {
        told.refused = Some(not_whole(&walk));
    }
    Ok(told)
}

/// A line for each lacking type, with its place and who asks for it.
fn lacking_lines(desk: &Desk, places: &Places) -> String {
    let mut text = String::new();
    for place in &places.shown {
        let lacking = desk.book.type_name(place.block);
        let _ = writeln!(
            text,
            "  {lacking}: {} asks for it, at {}",
            asker(desk, place.block),
            at(&place.path)
        );
    }
    text + &more(places)
}

fn more(places: &Places) -> String {
    match places.all {
        true => String::new(),
        false => format!("  and more places; {} are shown\n", places.shown.len()),
    }
}

fn lacking_json(desk: &Desk, places: &Places) -> Json {
    Json::list(places.shown.iter().map(|place| {
        Json::object([
            ("name", Json::text(desk.book.type_name(place.block))),
            ("path", Json::text(&place.path)),
            ("block", Json::number(place.block)),
            ("asked_by", Json::text(&asker(desk, place.block))),
        ])
    }))
}

/// Why a walk isn't whole.
fn not_whole(walk: &Walk) -> String {
    let chains = walk.chains(5).shown;
    match walk.names() {
        4_097.. => "the walk isn't whole: the type is made of more than 4,096 types".into(),
        _ => {
            let told: Vec<String> = chains
                .iter()
                .map(|p| format!("{}, at {}", p.declared, at(&p.path)))
                .collect();
            format!(
                "the walk isn't whole: an alias chain has 32 hops or no end: {}",
                told.join("; ")
            )
        }
    }
}

/// The question of the ticket.
pub fn why(desk: &Desk, name: &str) -> Result<Told, Failure> {
    let root = desk.find(name)?;
    let proved = desk.read_modify_write(root);
    let walk = Walk::new(desk, root);
    if !agree(&proved, &walk) {
        return Err(differs("the answer"));
    }
    match proved {
        Ok(true) => Ok(yes(desk, root, &walk)),
        Ok(false) => Ok(no(desk, root, &walk)),
        Err(refusal) => Err(unanswered(desk, name, &walk, refusal)),
    }
}

/// The proved call decides. If the walk for the paths came to something else, that would be a fault of this tool: nothing is shown then.
fn agree(proved: &Result<bool, Refusal>, walk: &Walk) -> bool {
    match (proved, walk.outcome) {
        (Ok(true), Outcome::Yes) | (Ok(false), Outcome::No) => true,
        (Err(Refusal::NotFound { block }), Outcome::Lacking(by)) => *block == by,
        (Err(Refusal::AliasChain), Outcome::Chain) | (Err(Refusal::TooManyTypes), Outcome::TooMany) => true,
        _ => false,
    }
}

fn differs(what: &str) -> Failure {
    Failure::told(format!(
        "a fault of this tool: {what} of its walk for the paths isn't the proved call's"
    ))
}

/// `Line.Stitch[..].Counter : FB_Count`, and what an alias comes to.
fn placed(desk: &Desk, place: &Place) -> String {
    let resolved = desk.book.name(place.block);
    match place.declared == resolved {
        true => format!("{} : {resolved}", at(&place.path)),
        false => format!("{} : {} = {resolved}", at(&place.path), place.declared),
    }
}

/// Why what lies at a place is a function block.
fn because(desk: &Desk, place: &Place) -> String {
    let found = desk.book.root(u64::from(place.block));
    found.map_or_else(|_| String::new(), |t| reason(t, &desk.book))
}

fn yes(desk: &Desk, root: TypeRef, walk: &Walk) -> Told {
    let places = walk.function_blocks(MOST_PLACES);
    let mut text = format!("yes: a function block lies in {}: {YES}\n", root.name());
    for place in &places.shown {
        let _ = writeln!(text, "  {} ({})", placed(desk, place), because(desk, place));
    }
    text += &more(&places);
    let lacking = walk.lacking_places(MOST_PLACES);
    if !lacking.shown.is_empty() {
        text += "the book lacks types too, in which more may lie:\n";
        text += &lacking_lines(desk, &lacking);
    }
    let found = places.shown.iter().map(|place| {
        Json::object([
            ("path", Json::text(&place.path)),
            ("declared", Json::text(place.declared)),
            ("type", Json::text(desk.book.name(place.block))),
            ("because", Json::text(&because(desk, place))),
        ])
    });
    let json = Json::object([
        ("type", Json::text(root.name())),
        ("answer", Json::text("yes")),
        ("names", Json::count(walk.names())),
        ("function_blocks", Json::list(found)),
        ("all_places", Json::Bool(places.all)),
        ("missing", lacking_json(desk, &lacking)),
    ]);
    Told::new(text, json)
}

fn no(desk: &Desk, root: TypeRef, walk: &Walk) -> Told {
    let mut text = format!(
        "no: no function block lies in {} ({} met): {NO}\n",
        root.name(),
        counted(walk.names() as u64, "name")
    );
    let behind = walk.not_followed(MOST_PLACES);
    for place in &behind.shown {
        let category = desk.book.root(u64::from(place.block)).map(|t| desk.category(t));
        let kind = category.map_or("type", word);
        let _ = writeln!(text, "  not looked behind: {}, {}", placed(desk, place), kind);
    }
    text += &more(&behind);
    let json = Json::object([
        ("type", Json::text(root.name())),
        ("answer", Json::text("no")),
        ("names", Json::count(walk.names())),
        (
            "not_followed",
            Json::list(behind.shown.iter().map(|p| Json::text(&placed(desk, p)))),
        ),
    ]);
    Told::new(text, json)
}

/// What is lacking, and where.
fn unanswered(desk: &Desk, name: &str, walk: &Walk, refusal: Refusal) -> Failure {
    let lacking = walk.lacking_places(MOST_PLACES);
    let mut words = format!("no answer for {name}: {refusal}");
    match refusal {
        Refusal::NotFound { .. } => {
            words += "; don't save before\n";
            words += lacking_lines(desk, &lacking).trim_end();
        }
        _ => {
            let _ = write!(words, "\n  {}", not_whole(walk));
        }
    }
    let known = walk.function_blocks(MOST_PLACES).shown;
    if !known.is_empty() {
        words += "\n  a function block that the book does know:";
        known.iter().for_each(|p| words += &format!("\n  {}", placed(desk, p)));
    }
    let json = Json::object([
        ("refused", Json::number(refusal.number())),
        ("words", Json::text(&words)),
        ("type", Json::text(name)),
        ("missing", lacking_json(desk, &lacking)),
    ]);
    Failure::Refused { words, json }
}

/// How a value of a type may be saved.
pub fn plan(ours: &Desk, controller: &Desk, name: &str, call: &Call) -> Result<Told, Failure> {
    let plan = ours.plan(controller, name)?;
    let rounds = rounds(ours, name, &plan)?;
    let mut text = format!(
        "{name}: our book has {}, the controller's {}\n",
        counted(ours.book.types().count() as u64, "type"),
        controller.book.types().count()
    );
    for (ask, round) in rounds.iter().enumerate() {
        let _ = writeln!(text, "ask {}: lacking: {}", ask + 1, round.listed.join(", "));
        for name in &round.added {
            let _ = writeln!(text, "  add {name}");
        }
    }
    let _ = writeln!(text, "ask {}: nothing is lacking", rounds.len() + 1);
    let _ = match plan.read_modify_write {
        true => writeln!(text, "yes: a function block lies in {name}: {YES}"),
        false => writeln!(text, "no: no function block lies in {name}: {NO}"),
    };
    let list = |names: &[String]| Json::list(names.iter().map(|n| Json::text(n)));
    let asks = rounds
        .iter()
        .map(|round| Json::object([("lacking", list(&round.listed)), ("added", list(&round.added))]));
    let json = Json::object([
        ("type", Json::text(name)),
        ("answer", Json::text(if plan.read_modify_write { "yes" } else { "no" })),
        ("asks", Json::list(asks)),
        ("added", list(&plan.added)),
    ]);
    after(call, plan.book.bytes(), Told::new(text, json))
}

/// An ask of a plan that listed something, and what was added then: the listed types, and what these are made of.
struct Round {
    listed: Vec<String>,
    added: Vec<String>,
}

/// The rounds of a plan. Its book grew from round to round, so each ask is made again on the part of it that was there.
fn rounds(ours: &Desk, root: &str, plan: &Plan) -> Result<Vec<Round>, Failure> {
    let (mut rounds, mut done) = (Vec::new(), 0);
    while done < plan.added.len() {
        let first = plan.book.find(&plan.added[done]).map(|t| 512 * t.block() as usize);
        let desk = Desk::new(plan.book.bytes()[..first.unwrap_or_default()].to_vec(), ours.width())?;
        let listed = desk.book.missing_types(root)?.names(&desk.book, root);
        let end = match desk.book.find(root) {
            Some(_) => round_end(ours, plan, done, listed.len()),
            // A root that our book lacks is added by itself.
            None => done + 1,
        };
        let added = plan.added[done..end].to_vec();
        done = end;
        rounds.push(Round { listed, added });
    }
    Ok(rounds)
}

/// Where the adds of a round end that begin at a place and of which so many were listed: each of them is followed by what it is made of.
fn round_end(ours: &Desk, plan: &Plan, start: usize, listed: usize) -> usize {
    let (mut at, mut end) = (start, (start + listed.max(1)).min(plan.added.len()));
    while at < end {
        if let Some(t) = plan.book.find(&plan.added[at]) {
            for part in named_parts(ours, t) {
                if plan.added.get(end).is_some_and(|next| next == part) {
                    end += 1;
                }
            }
        }
        at += 1;
    }
    end
}

/// The names of the types that a type is made of: its target, its element's or its fields'.
fn named_parts<'p>(ours: &Desk, t: TypeRef<'p>) -> Vec<&'p str> {
    match ours.category(t) {
        Category::Alias | Category::Array => vec![t.type_name()],
        Category::Struct | Category::Union | Category::FunctionBlock => {
            t.declared_fields().map(|f| f.type_name).collect()
        }
        _ => Vec::new(),
    }
}
