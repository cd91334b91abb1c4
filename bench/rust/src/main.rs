//! bench ENGINE SHEET [OPTION NUMBER]..
//! bench cases FILE [--empty-ranges]
//!
//! The first runs the sheet in the file SHEET by ENGINE and prints what the box prints. ENGINE is `walker` or, if built with the feature
//! `library`, `library`. Options: --path-limit, --budget, --skip, --output, and --runs, which runs it so many times and prints the last
//! run. The second runs the cases in FILE by the walker (see cases.rs), with --empty-ranges as they ran before edition 3 refused an empty
//! range of constants. The file `-` is standard input.

mod cases;
mod page;
mod sheet;
mod walk;

#[cfg(feature = "library")]
mod library;

use sheet::Refused;
use std::{
    env, fs,
    io::{self, BufWriter, Read, Write},
    process,
};
use walk::{Outcome, Setting};

fn main() {
    let arguments: Vec<String> = env::args().skip(1).collect();
    let Some(command) = parse(&arguments) else {
        eprintln!(
            "usage: bench walker|library SHEET [--path-limit N] [--budget N] [--skip N] [--output N] [--runs N]\n       \
             bench cases FILE [--empty-ranges]"
        );
        process::exit(2);
    };
    let printed = match command {
        Command::Sheet(engine, file, options) => print_sheet(engine, file, options),
        Command::Cases(file, strict) => print_cases(file, strict),
    };
    if let Err(error) = printed {
        eprintln!("bench: {error}");
        process::exit(1);
    }
}

type Engine = fn(&[u8], Setting, &mut [u32], &mut [u8]) -> Result<Outcome, Refused>;

struct Options {
    setting: Setting,
    output: usize,
    runs: u32,
}

enum Command<'a> {
    Sheet(Engine, &'a str, Options),
    Cases(&'a str, bool),
}

fn parse(arguments: &[String]) -> Option<Command<'_>> {
    let [engine, file, rest @ ..] = arguments else { return None };
    let engine: Engine = match engine.as_str() {
        "walker" => |sheet, setting, work, output| walk::run(sheet, true, setting, work.len(), output),
        #[cfg(feature = "library")]
        "library" => library::run,
        "cases" if rest.is_empty() => return Some(Command::Cases(file, true)),
        "cases" if rest == ["--empty-ranges"] => return Some(Command::Cases(file, false)),
        _ => return None,
    };
    Some(Command::Sheet(engine, file, parse_options(rest)?))
}

fn parse_options(words: &[String]) -> Option<Options> {
    let setting = Setting { path_limit: 512, budget: 1_000_000, skip: 0 };
    let mut options = Options { setting, output: 4096, runs: 1 };
    for pair in words.chunks(2) {
        let [name, number] = pair else { return None };
        let number: u32 = number.parse().ok()?;
        match name.as_str() {
            "--path-limit" => options.setting.path_limit = number,
            "--budget" => options.setting.budget = number,
            "--skip" => options.setting.skip = number,
            "--output" => options.output = number as usize,
            "--runs" => options.runs = number,
            _ => return None,
        }
    }
    Some(options)
}

fn print_sheet(engine: Engine, file: &str, options: Options) -> io::Result<()> {
    let mut sheet = Vec::new();
    open(file)?.take(4097).read_to_end(&mut sheet)?; // as many bytes as the box reads
    let mut work = vec![0; walk::words_for(options.setting.path_limit)];
    let mut output = vec![0; options.output];
    let mut result = engine(&sheet, options.setting, &mut work, &mut output);
    for _ in 1..options.runs {
        result = engine(&sheet, options.setting, &mut work, &mut output);
    }
    page::print(&mut io::stdout().lock(), &result, &output)
}

fn print_cases(file: &str, strict: bool) -> io::Result<()> {
    let mut bytes = Vec::new();
    open(file)?.read_to_end(&mut bytes)?;
    let mut out = BufWriter::new(io::stdout().lock());
    cases::print(&mut out, &bytes, strict)?;
    out.flush()
}

fn open(file: &str) -> io::Result<Box<dyn Read>> {
    if file == "-" {
        return Ok(Box::new(io::stdin()));
    }
    let opened = fs::File::open(file).map_err(|error| io::Error::new(error.kind(), format!("{file}: {error}")))?;
    Ok(Box::new(opened))
}
