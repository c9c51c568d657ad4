//! The tool itself, run on the examples: every session of tests/sessions and of the README, line for line.
//!
//! A line that begins with `$ typebook` is a command, run in the repository's root; `< FILE` behind it gives standard input, double
//! quotes hold a word together. Below it stand the lines of standard output, then those of standard error behind `2> `, then the exit
//! status in brackets if it isn't 0.

use std::fs::{self, File};
use std::path::{Path, PathBuf};
use std::process::{Command, Stdio};

fn top() -> PathBuf {
    Path::new(env!("CARGO_MANIFEST_DIR")).join("../..")
}

/// The words of a line.
fn words(line: &str) -> Vec<String> {
    let (mut out, mut quoted, mut open) = (vec![String::new()], false, false);
    for c in line.chars() {
        let last = out.last_mut().expect("a word");
        match c {
            '"' => {
                quoted = !quoted;
                open = true;
            }
            ' ' if !quoted => {
                if open || !last.is_empty() {
                    out.push(String::new());
                }
                open = false;
            }
            c => last.push(c),
        }
    }
    if !open && out.last().is_some_and(String::is_empty) {
        out.pop();
    }
    out
}

/// What a command prints, as a session shows it.
fn run(line: &str) -> String {
    let (line, input) = match line.split_once(" < ") {
        Some((line, file)) => (line, Some(file)),
        None => (line, None),
    };
    let mut command = Command::new(env!("CARGO_BIN_EXE_typebook"));
    command.args(words(line).iter().skip(1)).current_dir(top());
    command.stdin(match input {
        Some(file) => Stdio::from(File::open(top().join(file)).expect("a file")),
        None => Stdio::null(),
    });
    let done = command.output().expect("the tool runs");
    let mut out = String::from_utf8(done.stdout).expect("UTF-8");
    for line in String::from_utf8(done.stderr).expect("UTF-8").lines() {
        out += &format!("2> {line}\n");
    }
    match done.status.code() {
        Some(0) => out,
        status => out + &format!("[{}]\n", status.expect("an exit status")),
    }
}

/// Runs the commands of a session; the number of them.
fn hold(session: &str, file: &str) -> usize {
    let mut commands: Vec<(&str, String)> = Vec::new();
    for line in session.lines() {
        if let Some(command) = line.strip_prefix("$ ") {
            commands.push((command, String::new()));
        } else if let Some((_, wanted)) = commands.last_mut() {
            *wanted += line;
            wanted.push('\n');
        }
    }
    for (command, wanted) in &commands {
        assert_eq!(run(command).trim_end(), wanted.trim_end(), "{file}: {command}");
    }
    commands.len()
}

#[test]
fn sessions() {
    let folder = Path::new(env!("CARGO_MANIFEST_DIR")).join("tests/sessions");
    let mut commands = 0;
    for entry in fs::read_dir(folder).expect("sessions") {
        let path = entry.expect("a file").path();
        let session = fs::read_to_string(&path).expect("a session");
        let held = hold(&session, &path.display().to_string());
        assert!(held > 0, "{}: no commands", path.display());
        commands += held;
    }
    assert!(commands > 40, "{commands}");
}

/// The commands that the README shows, with what it shows of them.
#[test]
fn the_readme() {
    let readme = fs::read_to_string(top().join("README.md")).expect("the README");
    let part = readme.split("\n## At the desk\n").nth(1).expect("the part");
    let part = part.split("\n## ").next().expect("its end");
    let shown: Vec<&str> = part.lines().filter_map(|line| line.strip_prefix("    ")).collect();
    assert!(hold(&shown.join("\n"), "README.md") >= 3);
}

/// A folder of this run's own.
fn folder() -> PathBuf {
    let folder = std::env::temp_dir().join(format!("typebook-sessions-{}", std::process::id()));
    fs::create_dir_all(&folder).expect("a folder");
    folder
}

/// What `--output` writes: the book of an upload, a completed book, a changed image; nothing after a refusal.
#[test]
fn outputs() {
    let folder = folder();
    let file = |name: &str| folder.join(name).display().to_string();
    let example = |name: &str| fs::read(top().join("examples").join(name)).expect("a file");

    let book = file("station.book");
    let told = run(&format!(
        "typebook upload examples/upload/station.upload --output {book}"
    ));
    assert_eq!(
        told,
        format!("18 entries of the upload: 18 types of 36 blocks\nwritten: {book}\n")
    );
    assert_eq!(fs::read(&book).expect("a book"), example("upload/book.bin"));

    let ours = file("ours.book");
    fs::write(&ours, &example("pieces/book.bin")[..4 * 512]).expect("written");
    let whole = file("whole.book");
    run(&format!(
        "typebook plan {ours} examples/pieces/book.bin GlueRecipe --output {whole}"
    ));
    let answered = run(&format!("typebook why {whole} GlueRecipe"));
    assert_eq!(answered, run("typebook why examples/pieces/book.bin GlueRecipe"));

    let image = file("new.bin");
    let call = "typebook write examples/glue/book.bin GlueRecipe examples/glue/mem.bin";
    run(&format!("{call} Tank.Target=131.25 --output={image}"));
    let mut wanted = example("glue/mem.bin");
    wanted[53..57].copy_from_slice(&131.25f32.to_le_bytes());
    assert_eq!(fs::read(&image).expect("an image"), wanted);
    // The image itself is as it was, and a refusal writes nothing.
    let none = file("none.bin");
    assert!(run(&format!("{call} Tank.Target=131.25 Pieces=-1 --output {none}")).ends_with("[1]\n"));
    assert!(!Path::new(&none).exists());
    assert_eq!(
        fs::read(top().join("examples/glue/mem.bin")).expect("a file").len(),
        wanted.len()
    );
    assert!(run(&format!("{call} Pieces=1 --output {}", file("no/folder"))).ends_with("[1]\n"));
    fs::remove_dir_all(folder).expect("removed");
}

#[test]
fn versions() {
    let own = env!("CARGO_PKG_VERSION");
    let told = run("typebook --version");
    assert!(
        told.starts_with(&format!("typebook {own}, with the proved library ")),
        "{told}"
    );
}

/// Bytes alone on standard output, so that one command feeds another.
#[test]
fn pipes() {
    let book = fs::read(top().join("examples/upload/book.bin")).expect("a file");
    let mut command = Command::new(env!("CARGO_BIN_EXE_typebook"));
    command.args(["upload", "examples/upload/station.upload", "--output", "-"]);
    let done = command.current_dir(top()).output().expect("the tool runs");
    assert_eq!(done.stdout, book);
    assert!(done.stderr.is_empty());
}

/// Books that are wrong: the refusal says in which block.
#[test]
fn wrong_books() {
    let folder = std::env::temp_dir().join(format!("typebook-wrong-{}", std::process::id()));
    fs::create_dir_all(&folder).expect("a folder");
    let book = fs::read(top().join("examples/pieces/book.bin")).expect("a file");
    let mended = |mut book: Vec<u8>, block: usize, at: usize, value: u8| {
        book[512 * block + at] = value;
        model::make::mend(&mut book[512 * block..512 * block + 512]);
        book
    };
    let mut sum = book.clone();
    sum[512 * 7 + 60] ^= 1;
    let cases = [
        (book[..511].to_vec(), 1, ""),
        (sum, 2, "(block 7)"),
        // A field of GlueRecipe, whose four blocks come first, of a kind that there is not; a plain type with a flag too many.
        (mended(book.clone(), 3, 0, 9), 3, "(blocks 0 to 3)"),
        (mended(book.clone(), 20, 1, 64), 3, "(block 20)"),
        (
            [book.clone(), book[20 * 512..].to_vec()].concat(),
            4,
            "(blocks 20 and 21, \"UDINT\")",
        ),
    ];
    for (bytes, number, place) in cases {
        let path = folder.join("wrong.book");
        fs::write(&path, bytes).expect("written");
        let told = run(&format!("typebook check {}", path.display()));
        assert!(
            told.contains(&format!("refusal {number}: ")) && told.contains(place) && told.ends_with("[1]\n"),
            "{told}"
        );
    }
    fs::remove_dir_all(folder).expect("removed");
}

/// No command panics on a damaged upload or a book of damaged bytes: it answers, or refuses with words.
#[test]
fn damaged_files() {
    let folder = std::env::temp_dir().join(format!("typebook-damaged-{}", std::process::id()));
    fs::create_dir_all(&folder).expect("a folder");
    let path = folder.join("damaged");
    let shown = path.display();
    for seed in 0..60 {
        let mut rng = model::random::Rng::new(seed);
        let source = ["upload/station.upload", "upload/book.bin"][seed as usize % 2];
        let mut bytes = fs::read(top().join("examples").join(source)).expect("a file");
        for _ in 0..1 + rng.below(3) {
            let at = rng.below(bytes.len());
            bytes[at] = rng.number() as u8;
        }
        fs::write(&path, bytes).expect("written");
        for command in [
            format!("typebook upload {shown} --fitting"),
            format!("typebook check {shown}"),
            format!("typebook why {shown} Line --json"),
            format!("typebook show {shown} Line"),
            format!("typebook read {shown} Line examples/upload/mem.bin"),
        ] {
            let told = run(&command);
            assert!(
                !told.is_empty() && !told.contains("panicked"),
                "seed {seed}: {command}: {told}"
            );
        }
    }
    fs::remove_dir_all(folder).expect("removed");
}

/// Every command on random books, with a memory for the root: an answer or a refusal, and what `why` says is what the model says.
#[test]
fn random_books() {
    let folder = std::env::temp_dir().join(format!("typebook-random-{}", std::process::id()));
    fs::create_dir_all(&folder).expect("a folder");
    let (book, memory) = (folder.join("book"), folder.join("memory"));
    let mut answers = [0; 3];
    for seed in 0..80 {
        let rng = &mut model::random::Rng::new(seed);
        let made = match seed % 4 {
            0 => model::random::chaos(rng),
            _ => model::random::made(rng),
        };
        let width = if [2, 4, 8].contains(&made.width) { made.width } else { 8 };
        fs::write(&book, &made.book).expect("written");
        fs::write(&memory, model::random::memory(rng, &made)).expect("written");
        let name = String::from_utf8_lossy(model::block::name(&made.book, made.root)).into_owned();
        let [book, memory] = [&book, &memory].map(|path| path.display().to_string());
        for (command, words) in [
            ("check", vec![&book]),
            ("types", vec![&book]),
            ("show", vec![&book, &name]),
            ("missing", vec![&book, &name]),
            ("plan", vec![&book, &book, &name]),
            ("read", vec![&book, &name, &memory]),
            ("why", vec![&book, &name]),
        ] {
            let mut call = Command::new(env!("CARGO_BIN_EXE_typebook"));
            call.arg(command)
                .args([format!("--width={width}"), "--".into()])
                .args(words);
            let done = call.output().expect("the tool runs");
            let (out, err) = (
                String::from_utf8_lossy(&done.stdout),
                String::from_utf8_lossy(&done.stderr),
            );
            let status = done.status.code();
            assert!(matches!(status, Some(0 | 1)), "seed {seed}: {command}: {err}");
            assert!(
                status == Some(0) || err.starts_with("typebook: "),
                "seed {seed}: {command}: {err}"
            );
            if command == "why" {
                let model = model::walk::requires_read_modify_write(&model::Book::new(&made.book), width, made.root);
                let said = match &out[..] {
                    yes if yes.starts_with("yes: ") => Some(true),
                    no if no.starts_with("no: ") => Some(false),
                    _ => None,
                };
                assert_eq!(said, model.ok(), "seed {seed}");
                answers[said.map_or(2, usize::from)] += 1;
            }
        }
    }
    assert!(answers.iter().all(|&n| n > 5), "{answers:?}");
    fs::remove_dir_all(folder).expect("removed");
}
