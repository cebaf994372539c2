//! compare_files PROGRAM: compares what PROGRAM prints for files with the judge's rules, and with the published Rust. Options: `--files N` small files at
//! random (2,000), `--seed N`, `--stdin` where the program has no argument FILE, `--sizes IDS,ARENA,STRINGS,BYTES,OUTPUT` where the program lends others, `--file FILE` for one file alone,
//! `--model` for the rules in the program's place.

use std::io::{ErrorKind, Write};
use std::process::{Command, ExitCode, Stdio};
use std::time::{Duration, Instant};

use files::compare::{Answers, Counts, Model, edge_rows, enemies, large, limits, one, random};
use files::file::ROADFILE;
use files::osmium;
use files::produce::{Shape, real};
use judge::Sizes;

/// An answer that takes longer is told.
const SLOW: Duration = Duration::from_secs(2);

/// A program that is run once for each file: standard input, or as FILE where it has that argument.
struct Program {
    path: String,
    as_file: Option<std::path::PathBuf>,
}

impl Answers for Program {
    fn answer(&mut self, file: &[u8]) -> Vec<u8> {
        let began = Instant::now();
        let mut command = Command::new(&self.path);
        if let Some(path) = &self.as_file {
            std::fs::write(path, file).expect("a file for the program");
            command.arg(path);
        }
        let command = command.stdin(Stdio::piped()).stdout(Stdio::piped()).stderr(Stdio::null());
        let mut child = command.spawn().expect("the program");
        let mut input = child.stdin.take().expect("its standard input");
        let given: &[u8] = if self.as_file.is_some() { b"" } else { file };
        let output = std::thread::scope(|scope| {
            // a program may answer before it has read all
            scope.spawn(move || match input.write_all(given) {
                Err(e) if e.kind() != ErrorKind::BrokenPipe => panic!("{e}"),
                _ => {}
            });
            child.wait_with_output().expect("its output")
        });
        if began.elapsed() > SLOW {
            println!("{:.1} s for {} bytes", began.elapsed().as_secs_f64(), file.len());
        }
        // 0 whatever it prints, as the program itself ends, or 1 for a refusal, as its command does
        let refused = output.stdout.starts_with(b"refused\t");
        let status = output.status.code();
        assert!(status == Some(0) || (refused && status == Some(1)), "{}: {:?}", self.path, output.status);
        output.stdout
    }
}

struct Options {
    program: Option<String>,
    files: usize,
    seed: u64,
    sizes: Sizes,
    file: Option<String>,
    as_file: bool,
}

fn options() -> Options {
    let mut options = Options { program: None, files: 2_000, seed: 1, sizes: ROADFILE, file: None, as_file: true };
    let mut args = std::env::args().skip(1);
    while let Some(arg) = args.next() {
        let mut value = || args.next().unwrap_or_else(|| panic!("{arg} needs a value"));
        match &*arg {
            "--files" => options.files = value().parse().expect("a number"),
            "--seed" => options.seed = value().parse().expect("a number"),
            "--sizes" => options.sizes = sizes(&value()),
            "--file" => options.file = Some(value()),
            "--stdin" => options.as_file = false,
            "--model" => options.program = None,
            option if option.starts_with("--") => panic!("unknown option {option}"),
            _ => options.program = Some(arg),
        }
    }
    options
}

fn sizes(text: &str) -> Sizes {
    let numbers: Vec<usize> = text.split(',').map(|n| n.parse().expect("a number")).collect();
    let [ids, arena, strings, string_bytes, output] = numbers[..] else { panic!("five sizes") };
    Sizes { ids: [ids; 3], arenas: [arena; 3], strings, string_bytes, output }
}

fn run(options: &Options, counts: &mut Counts) -> Result<(), String> {
    let mut port: Box<dyn Answers> = match &options.program {
        Some(path) => Box::new(Program { path: path.clone(), as_file: None }),
        None => Box::new(Model(options.sizes)),
    };
    let sizes = &options.sizes;
    if let Some(path) = &options.file {
        let file = std::fs::read(path).map_err(|e| format!("{path}: {e}"))?;
        return one(&mut *port, sizes, counts, &file);
    }
    edge_rows(&mut *port, counts)?;
    random(&mut *port, sizes, counts, options.seed, options.files)?;
    limits(&mut *port, sizes, counts)?;
    enemies(&mut *port, sizes, counts, 1_000_000)?;
    large(&mut *port, sizes, counts, &Shape::SOME, options.seed)?;
    match osmium::written(&real(&Shape::SOME, options.seed + 2)) {
        Some(file) => one(&mut *port, sizes, counts, &file)?,
        None => println!("{}", osmium::NONE),
    }
    // the same as FILE
    if let Some(path) = options.program.as_ref().filter(|_| options.as_file) {
        let folder = std::env::temp_dir().join(format!("compare_files.{}", std::process::id()));
        std::fs::create_dir(&folder).map_err(|e| e.to_string())?;
        let mut port = Program { path: path.clone(), as_file: Some(folder.join("change.osc")) };
        let reply = random(&mut port, sizes, counts, options.seed + 1, 60)
            .and_then(|()| large(&mut port, sizes, counts, &Shape::SOME, options.seed + 1));
        std::fs::remove_dir_all(&folder).map_err(|e| e.to_string())?;
        reply?;
    }
    Ok(())
}

fn main() -> ExitCode {
    // a panic of the Rust is a refusal, and its message is nothing to show
    std::panic::set_hook(Box::new(|what| {
        if !what.location().is_some_and(|place| place.file().contains("vendored")) {
            eprintln!("{what}");
        }
    }));
    let (options, began) = (options(), Instant::now());
    let mut counts = Counts::new();
    let reply = run(&options, &mut counts);
    for (class, files) in &counts {
        println!("{files:>7}  {class}");
    }
    let files: u64 = counts.values().sum();
    println!("{files:>7}  files in {:.1} s", began.elapsed().as_secs_f64());
    match reply {
        Ok(()) => ExitCode::SUCCESS,
        Err(difference) => {
            println!("{difference}");
            ExitCode::FAILURE
        }
    }
}
