//! Comparisons with the crate `interpolator` 0.5.0, for whoever has its source: the variable
//! INTERPOLATOR_ORIGIN names the folder of its Cargo.toml. Without it they are skipped.
//!
//! Both crates are compiled by `rustc`, since Cargo takes no two of the same name and version, with
//! the programs in `origin/`, in a folder for temporary files.
use std::collections::BTreeSet;
use std::env;
use std::ffi::OsString;
use std::fs;
use std::path::{Path, PathBuf};
use std::process::{self, Command, Output};

/// The folder of this crate.
const HERE: &str = env!("CARGO_MANIFEST_DIR");

/// A folder with both crates, which is removed in the end.
struct Crates {
    folder: PathBuf,
    origin: PathBuf,
    archive: PathBuf,
}

impl Drop for Crates {
    fn drop(&mut self) {
        let _ = fs::remove_dir_all(&self.folder);
    }
}

/// Either crate.
#[derive(Clone, Copy, PartialEq, Debug)]
enum Side {
    Here,
    There,
}

impl Crates {
    /// Both crates, compiled into a folder of that name; none if there is no source of the other.
    fn new(name: &str) -> Option<Self> {
        let Some(origin) = env::var_os("INTERPOLATOR_ORIGIN").filter(|folder| !folder.is_empty())
        else {
            println!("skipped: INTERPOLATOR_ORIGIN does not name the folder of the crate's source");
            return None;
        };
        let archive = match env::var_os("INTERPOLATOR_LIB") {
            Some(folder) => PathBuf::from(folder),
            None => Path::new(HERE).join("../c/build"),
        };
        let crates = Crates {
            folder: env::temp_dir().join(format!("interpolator-{name}-{}", process::id())),
            origin: PathBuf::from(origin),
            archive,
        };
        fs::create_dir_all(&crates.folder).unwrap();
        let there = crates.origin.join("src/lib.rs");
        crates.compile(&["there", "rlib"], &there, &["debug", "number", "iter"]);
        let here = Path::new(HERE).join("src/lib.rs");
        crates.compile(&["here", "rlib"], &here, &[]);
        Some(crates)
    }

    fn compile(&self, [name, kind]: &[&str; 2], source: &Path, features: &[&str]) {
        let mut command = self.rustc(name, kind, source);
        command.arg("-O");
        for feature in features {
            command.arg("--cfg").arg(format!("feature=\"{feature}\""));
        }
        run(&mut command);
    }

    /// rustc, for a source of this name, with the library.
    fn rustc(&self, name: &str, kind: &str, source: &Path) -> Command {
        let mut command = Command::new("rustc");
        command
            .args(["--edition=2021", "--cap-lints=warn", "-Awarnings"])
            .args(["--crate-name", name, "--crate-type", kind])
            .arg(source)
            .arg("--out-dir")
            .arg(&self.folder)
            .arg("-L")
            .arg(&self.folder);
        if name == "here" {
            let mut folder = OsString::from("native=");
            folder.push(&self.archive);
            command
                .arg("-L")
                .arg(folder)
                .args(["-l", "static=interpolator"]);
        }
        command
    }

    /// `name=path` of a side's library.
    fn library(&self, name: &str, side: Side) -> OsString {
        let file = match side {
            Side::Here => "libhere.rlib",
            Side::There => "libthere.rlib",
        };
        let mut library = OsString::from(format!("{name}="));
        library.push(self.folder.join(file));
        library
    }

    /// Compiles a program, to which one side is `interpolator`.
    fn build(&self, name: &str, source: &Path, side: Side) -> Command {
        let mut command = self.rustc(name, "bin", source);
        command
            .arg("--extern")
            .arg(self.library("interpolator", side));
        command
    }

    /// What a program prints, to which one side is `interpolator`.
    fn printed(&self, name: &str, source: &Path, side: Side) -> String {
        run(&mut self.build(name, source, side));
        run(&mut Command::new(self.folder.join(name)))
    }

    /// The lines of a source at which it does not compile with one side.
    fn lines_with_errors(&self, source: &Path, side: Side) -> BTreeSet<usize> {
        let mut command = self.build("lines", source, side);
        let output = command
            .args(["--emit=metadata", "--error-format=short"])
            .output()
            .unwrap();
        let errors = String::from_utf8(output.stderr).unwrap();
        let lines = errors.lines().filter_map(|line| {
            let place = line.strip_prefix(source.to_str()?)?.strip_prefix(':')?;
            place.split_once(':')?.0.parse().ok()
        });
        let lines: BTreeSet<usize> = lines.collect();
        assert!(output.status.success() || !lines.is_empty(), "{errors}");
        lines
    }
}

/// What a command prints, if it succeeds.
#[track_caller]
fn run(command: &mut Command) -> String {
    let Output {
        status,
        stdout,
        stderr,
    } = command.output().unwrap();
    let (printed, errors) = (
        String::from_utf8(stdout).unwrap(),
        String::from_utf8_lossy(&stderr),
    );
    assert!(status.success(), "{command:?}\n{printed}\n{errors}");
    printed
}

fn source(name: &str) -> PathBuf {
    Path::new(HERE).join("tests").join(name)
}

#[test]
fn the_forms_of_the_macros() {
    let Some(crates) = Crates::new("forms") else {
        return;
    };
    let source = source("origin/forms.rs");
    let [here, there] =
        [Side::Here, Side::There].map(|side| crates.printed("forms", &source, side));
    assert_eq!(here, there);
    assert!(here.lines().count() > 100);
}

#[test]
fn a_program() {
    let Some(crates) = Crates::new("program") else {
        return;
    };
    for side in [Side::Here, Side::There] {
        crates.printed("program", &source("program.rs"), side);
    }
}

/// All sequences of so many tokens at most.
fn sequences(tokens: &[&str], most: usize) -> Vec<String> {
    let mut sequences = vec![String::new()];
    let mut first = 0;
    for _ in 0..most {
        let end = sequences.len();
        for before in first..end {
            for token in tokens {
                sequences.push(format!("{} {token}", sequences[before]));
            }
        }
        first = end;
    }
    sequences
}

/// The source of a program that prints what each of these forms makes, each in a line of its own.
fn program(forms: &[String]) -> String {
    let mut program = String::new();
    for (number, form) in forms.iter().enumerate() {
        program.push_str(&format!(
            "fn f{number}() -> String {{ let (a, b) = (5, 16); {form}.shown() }}\n"
        ));
    }
    let path = source("common/forms.rs");
    program.push_str(&format!(
        "#[path = {path:?}] mod forms;\nuse forms::Made;\nuse interpolator::*;\nfn main() {{\n"
    ));
    for number in 0..forms.len() {
        program.push_str(&format!("println!(\"{{}}\", f{number}());\n"));
    }
    program + "}\n"
}

/// Compares what both sides make of each form that the other crate takes.
fn compare_forms(name: &str, mut forms: Vec<String>, is_forecast: fn(&str) -> bool) {
    let Some(crates) = Crates::new(name) else {
        return;
    };
    let all = forms.len();
    let path = crates.folder.join("tokens.rs");
    let mut left_out = Vec::new();
    for side in [Side::There, Side::Here] {
        loop {
            fs::write(&path, program(&forms)).unwrap();
            let lines = crates.lines_with_errors(&path, side);
            if lines.is_empty() {
                break;
            }
            let mut line = 0;
            forms.retain(|form| {
                line += 1;
                let is_taken = !lines.contains(&line);
                if !is_taken && side == Side::Here {
                    left_out.push(form.clone());
                }
                is_taken
            });
        }
    }
    let unforetold: Vec<_> = left_out.iter().filter(|form| !is_forecast(form)).collect();
    assert!(unforetold.is_empty(), "not taken here: {unforetold:#?}");
    let [here, there] = [Side::Here, Side::There].map(|side| crates.printed(name, &path, side));
    for ((form, here), there) in forms.iter().zip(here.lines()).zip(there.lines()) {
        assert_eq!(here, there, "{form}");
    }
    println!(
        "{name}: of {all} forms the crate takes {}, of which {} are not taken here, as foretold",
        forms.len() + left_out.len(),
        left_out.len()
    );
    assert!(forms.len() > 50);
}

// A form that ends too early is an error in the macro, whose line is none of the form's. So each
// form goes on behind its tokens.

#[test]
fn all_entries_of_a_few_tokens() {
    let tokens = [":", "::", "?", "x", "=", "5", ",", "b"];
    let forms = sequences(&tokens, 4);
    let forms = forms
        .iter()
        .map(|form| format!("context! {{ a{form}, b: e = 7 }}"));
    compare_forms("entries", forms.collect(), |_| false);
}

#[test]
fn all_lists_of_a_few_tokens() {
    let tokens = [":", "::", "?", "x", ";", "a", ","];
    let mut forms = Vec::new();
    for end in ["; a", ", b", " b, a"] {
        forms.extend(
            sequences(&tokens, 4)
                .iter()
                .map(|form| format!("list![{form}{end} ]")),
        );
    }
    // A list of values alone, behind what looks like traits.
    let is_without_end = |form: &str| form.contains(':') && !form.contains(';');
    compare_forms("lists", forms, is_without_end);
}

#[test]
fn names_that_are_given_three_times() {
    let entries = [
        "a",
        "a:?",
        "a: :x",
        "a = 1",
        "a:? = \"t\"",
        "a:x:b = 3",
        "a:integer = 4u8",
        "a:float = 0.5",
        "a = 'c'",
        "b:e",
    ];
    let mut forms = Vec::new();
    for first in entries {
        for second in entries {
            for third in entries {
                forms.push(format!("context! {{ {first}, {second}, {third} }}"));
            }
        }
    }
    compare_forms("names", forms, |_| false);
}

#[test]
fn formats_that_are_put_together_at_random() {
    let Some(crates) = Crates::new("formats") else {
        return;
    };
    let mut command = crates.rustc("formats", "bin", &source("origin/formats.rs"));
    command.arg("-O");
    for (name, side) in [("here", Side::Here), ("there", Side::There)] {
        command.arg("--extern").arg(crates.library(name, side));
    }
    run(&mut command);
    let program = crates.folder.join("formats");
    println!("{}", run(Command::new(program).args(["300000", "1"])));
}

/// The examples in the documentation of a source, as Markdown, but for those that do not compile
/// there: they bind a context or list of values that are made on the spot, which is taken here.
fn examples(source: &str) -> String {
    let mut examples = String::new();
    let mut is_inside = false;
    let mut is_left_out = false;
    for line in source.lines() {
        let line = line.trim_start();
        let line = line.trim_start_matches("///").trim_start_matches("//!");
        let is_fence = line.trim_start().starts_with("```");
        is_left_out = line.contains("compile_fail") || is_left_out && is_inside;
        if (is_fence || is_inside) && !is_left_out {
            let line = if is_fence && is_inside { "```" } else { line };
            examples.push_str(line);
            examples.push('\n');
        }
        is_inside ^= is_fence;
    }
    examples
}

/// The crates that the examples name besides, as far as they use them.
const HASH: &str = "#[macro_export] macro_rules! hash { ($($name:expr => $value:expr),*) => {
    ::std::collections::HashMap::from([$(($name, $value)),*]) } }";
const ASSERT_DBG: &str = "#[macro_export] macro_rules! assert_dbg { ($value:expr, $text:expr) => {
    assert_eq!(format!(\"{:?}\", $value), $text) } }";

#[test]
fn the_examples_of_its_documentation() {
    let Some(crates) = Crates::new("examples") else {
        return;
    };
    let sources = ["lib", "macros", "formattable", "error", "parser"]
        .map(|name| fs::read_to_string(crates.origin.join(format!("src/{name}.rs"))).unwrap());
    let examples = sources.map(|source| examples(&source)).concat();
    let path = crates.folder.join("examples.md");
    fs::write(&path, &examples).unwrap();
    for (name, source) in [("collection_literals", HASH), ("assert_dbg", ASSERT_DBG)] {
        let path = crates.folder.join(format!("{name}.rs"));
        fs::write(&path, source).unwrap();
        run(&mut crates.rustc(name, "rlib", &path));
    }
    let mut command = Command::new("rustdoc");
    command.args(["--test", "--edition=2021"]).arg(&path);
    command.arg("-L").arg(&crates.folder);
    command
        .arg("--extern")
        .arg(crates.library("interpolator", Side::Here));
    for name in ["collection_literals", "assert_dbg"] {
        command.args(["--extern", name]);
    }
    let printed = run(&mut command);
    let passed = printed
        .lines()
        .find_map(|line| line.strip_prefix("test result: ok. ")?.split(' ').next());
    assert!(
        passed.is_some_and(|count| count.parse::<u32>().unwrap() >= 15),
        "{printed}"
    );
}
