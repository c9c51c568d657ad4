//! What each request answers.

use std::fmt::Write;
use typebook::{Missing, Plan, PlanError, Refusal, Room, Tape, TypeBook, TypeRef, Value, calls};

fn hex(bytes: &[u8]) -> String {
    bytes.iter().fold(String::new(), |mut out, b| {
        write!(out, "{b:02X}").expect("a string");
        out
    })
}

fn hex_or_dash(bytes: &[u8]) -> String {
    if bytes.is_empty() { "-".into() } else { hex(bytes) }
}

/// What a request takes besides the book: a memory, or the controller's book of a plan, and a read's room or a write's tape and text.
pub struct More {
    pub memory: Vec<u8>,
    pub room: Room,
    pub tape: Vec<u8>,
    pub text: Vec<u8>,
}

/// One request on a book; none if there is no such request.
pub fn answer(request: &str, width: u8, bytes: &[u8], root: u32, more: &More) -> Option<String> {
    let memory = &more.memory[..];
    let book = match TypeBook::new(bytes, width) {
        Ok(book) => book,
        Err(refusal) => return Some(format!("err {}", refusal.number())),
    };
    let t = match book.root(u64::from(root)) {
        Ok(t) => t,
        Err(refusal) => return Some(format!("err {}", refusal.number())),
    };
    let told = match request {
        "cat" => Ok(format!("{:?}", t.category())),
        "alias" => agreed(t.resolve_alias(), &book, t, width, calls::resolve_alias),
        "indir" => agreed(t.resolve_indirection(), &book, t, width, calls::resolve_indirection),
        "rmw" => rmw(&book, t, width),
        "missing" => t.missing_types().map(|missing| listed(&book, t, width, &missing)),
        "fields" => fields(t),
        "read" => t
            .read_within(memory, more.room)
            .map(|tape| events(&book, t, width, memory, &tape)),
        "write" => written(&book, t, width, more),
        "plan" => Ok(planned(&book, t, width, memory)),
        _ => return None,
    };
    Some(told.unwrap_or_else(|refusal| refused(&book, refusal)))
}

/// A refusal as the original's program tells it: 7 with the missing name and the block.
fn refused(book: &TypeBook, refusal: Refusal) -> String {
    match refusal {
        Refusal::NotFound { block } => format!("err 7 {} {block}", hex_or_dash(book.type_name(block).as_bytes())),
        other => format!("err {}", other.number()),
    }
}

/// A call on a root in its checked form.
type Call = fn(&[u8], usize, u8, u64, &mut [u64]) -> u8;

/// Whether a call's answer is this result.
fn same<T>(number: u8, block: u64, result: &Result<T, Refusal>) -> bool {
    match result {
        Ok(_) => number == 0,
        Err(refusal) => number == refusal.number() && Refusal::from_number(number, block) == Some(*refusal),
    }
}

fn agreed(
    result: Result<TypeRef, Refusal>,
    book: &TypeBook,
    t: TypeRef,
    width: u8,
    call: Call,
) -> Result<String, Refusal> {
    let (mut values, bytes) = ([0], book.bytes());
    let number = call(bytes, bytes.len(), width, t.block().into(), &mut values);
    let at = result.as_ref().map_or(values[0], |found| found.block().into());
    match same(number, values[0], &result) && at == values[0] {
        true => result.map(|found| format!("ok {}", found.block())),
        false => Ok("differ".into()),
    }
}

/// The index of a book that was checked.
fn index(bytes: &[u8]) -> Vec<u32> {
    let mut index = vec![1; calls::INDEX];
    assert_eq!(calls::build_index(bytes, bytes.len(), &mut index), 0);
    index
}

fn rmw(book: &TypeBook, t: TypeRef, width: u8) -> Result<String, Refusal> {
    let result = t.requires_read_modify_write();
    let (mut scratch, mut values) = (vec![1; 8_192], [0]);
    let bytes = book.bytes();
    let number = calls::requires_read_modify_write(
        bytes,
        bytes.len(),
        &index(bytes),
        width,
        t.block().into(),
        &mut scratch,
        &mut values,
    );
    let yes = result.as_ref().is_ok_and(|&yes| yes);
    match same(number, values[0], &result) && (result.is_err() || yes == (values[0] == 1)) {
        true => result.map(|yes| if yes { "yes".into() } else { "no".into() }),
        false => Ok("differ".into()),
    }
}

fn listed(book: &TypeBook, t: TypeRef, width: u8, missing: &Missing) -> String {
    let (mut scratch, mut list, mut values) = (vec![1; 8_192], vec![1; 4_096], [0; 3]);
    let (bytes, root) = (book.bytes(), t.block().into());
    let number = calls::missing_types(
        bytes,
        bytes.len(),
        &index(bytes),
        width,
        root,
        &mut scratch,
        &mut list,
        &mut values,
    );
    let told = [
        missing.blocks.len() as u64,
        u64::from(missing.whole),
        missing.count as u64,
    ];
    if number != 0 || values != told || list[..missing.blocks.len()] != missing.blocks {
        return "differ".into();
    }
    let mut out = "ok".to_string();
    for &block in &missing.blocks {
        write!(out, " {}@{block}", hex(book.type_name(block).as_bytes())).expect("a string");
    }
    format!("{out} whole={} count={}", u8::from(missing.whole), missing.count)
}

fn fields(t: TypeRef) -> Result<String, Refusal> {
    let mut out = "ok".to_string();
    for f in t.fields()? {
        let name = hex_or_dash(f.name.as_bytes());
        write!(
            out,
            " {},{},{},{name},{}",
            f.offset,
            f.size,
            f.resolved.block(),
            f.field
        )
        .expect("a string");
    }
    Ok(out)
}

fn events(book: &TypeBook, t: TypeRef, width: u8, memory: &[u8], tape: &Tape) -> String {
    let (mut records, mut text) = (vec![1; tape.bytes().len()], vec![1; tape.text().len()]);
    let (bytes, root) = (book.bytes(), t.block().into());
    let number = calls::read(
        bytes,
        bytes.len(),
        width,
        root,
        memory,
        &mut records,
        &mut text,
        &mut [0; 2],
    );
    if number != 0 || records != tape.bytes() || text != tape.text() {
        return "differ".into();
    }
    let (mut out, mut open) = ("ok".to_string(), Vec::new());
    for record in tape {
        match record.value {
            Value::Array(_) => open.push(" endarray"),
            Value::Map(_) => open.push(" endmap"),
            _ => {}
        }
        out += &match record.value {
            Value::End => open.pop().unwrap_or(" end").to_string(),
            value => event(value, record.block.unwrap_or(0)),
        };
        if let Some(declared) = record.declared_block {
            out += &format!("^{declared}");
        }
    }
    out
}

/// The output; both forms must leave the image after a refusal.
fn written(book: &TypeBook, t: TypeRef, width: u8, more: &More) -> Result<String, Refusal> {
    let More { memory, tape, text, .. } = more;
    let (mut output, mut other, mut values) = (vec![1; memory.len()], vec![2; memory.len()], [0]);
    let result = t.write_into(memory, tape, text, &mut output);
    let (bytes, root) = (book.bytes(), t.block().into());
    let number = calls::write(
        bytes,
        bytes.len(),
        width,
        root,
        memory,
        tape,
        text,
        &mut other,
        &mut values,
    );
    let kept = result.is_ok() || output == *memory;
    match same(number, values[0], &result) && output == other && kept {
        true => result.map(|()| format!("ok {}", hex_or_dash(&output))),
        false => Ok("differ".into()),
    }
}

/// Yes or no, after which the completed book must lack nothing; or the refusal, 7 with the missing name.
fn planned(book: &TypeBook, t: TypeRef, width: u8, controller: &[u8]) -> String {
    let controller = match TypeBook::new(controller, width) {
        Ok(controller) => controller,
        Err(refusal) => return format!("err {}", refusal.number()),
    };
    let result = book.plan(&controller, u64::from(t.block()));
    if !plans_alike(book, t, width, &controller, &result) {
        return "differ".into();
    }
    match result {
        Ok(plan) => if plan.read_modify_write { "yes" } else { "no" }.into(),
        Err(PlanError::Missing { name }) => format!("err 7 {}", hex_or_dash(name.as_bytes())),
        Err(refused) => format!("err {}", refused.number()),
    }
}

/// Whether the call by numbers, over a short index and used buffers, says the same and leaves the same book.
fn plans_alike(
    book: &TypeBook,
    t: TypeRef,
    width: u8,
    controller: &TypeBook,
    result: &Result<Plan, PlanError>,
) -> bool {
    let (len, theirs) = (book.bytes().len(), controller.bytes());
    let mut buffer = [book.bytes(), &vec![1; theirs.len()]].concat();
    let (mut scratch, mut index, mut values) = (vec![1; 8_192], vec![1; 9], [0; 2]);
    let number = calls::plan_save(
        &mut buffer,
        len,
        theirs,
        theirs.len(),
        width,
        t.block().into(),
        &mut scratch,
        &mut index,
        &mut values,
    );
    match result {
        Ok(plan) => {
            let lacks_none = plan.book.root(u64::from(t.block())).and_then(|t| t.missing_types());
            let bytes = plan.book.bytes();
            number == 0
                && values == [u64::from(plan.read_modify_write), bytes.len() as u64]
                && buffer.starts_with(bytes)
                && lacks_none.is_ok_and(|missing| missing.whole && missing.blocks.is_empty())
        }
        Err(refused) => number == refused.number(),
    }
}

fn event(value: Value, block: u32) -> String {
    match value {
        Value::Array(count) => format!(" array:{count}"),
        Value::Map(count) => format!(" map:{count}"),
        Value::End => " end".into(),
        Value::Key(name) => format!(" key:{}@{block}", hex(name.as_bytes())),
        Value::Bool(value) => format!(" bool:{}", u8::from(value)),
        Value::Int { bits, value } => format!(" i{bits}:{value}"),
        Value::Nat { bits, value } => format!(" u{bits}:{value}"),
        Value::Real32(bits) => format!(" f32:{bits:08X}"),
        Value::Real64(bits) => format!(" f64:{bits:016X}"),
        Value::Text { text, clipped } => {
            let word = if clipped { "clipped" } else { "str" };
            format!(" {word}:{}", hex(text.as_bytes()))
        }
        Value::Enum(name) => format!(" enum:{}@{block}", hex(name.as_bytes())),
        Value::Unit => " unit".into(),
    }
}
