//! Commands: see USAGE.

use second::answers;
use second::case::{self, Case};
use second::subject::{self, Subject};
use second::{
    convert, descriptions, differ, generate, looked, mend, merge, spelling, stats, sweep, texts,
};
use std::env;
use std::io::{self, BufReader, BufWriter, Write};
use std::process::ExitCode;

const USAGE: &str = "usage:
second generate SEED COUNT [WORDS]   cases to standard output, longer ones than WORDS left out
second answers                       cases from standard input, lines to standard output
second texts                         the cases of a text from standard input, with their answers
second stats SEED COUNT              what occurs in so many cases
second show SEED INDEX               one case in readable form
second compare SEED COUNT            the library against the rules (feature library)
second generate-SUBJECT SEED COUNT, answers-SUBJECT, show-SUBJECT SEED INDEX,
second compare-SUBJECT SEED COUNT: the same for a SUBJECT: descriptions, spelling, differ,
mend, merge, convert, looked, sweep
second differ FILE FILE FILE          what the program that lists differences prints
second differ-files SEED INDEX FOLDER three files for it";

fn main() -> ExitCode {
    let arguments: Vec<String> = env::args().skip(1).collect();
    let words: Vec<&str> = arguments.iter().map(String::as_str).collect();
    match dispatch(&words) {
        Ok(code) => code,
        Err(error) if error.kind() == io::ErrorKind::BrokenPipe => ExitCode::SUCCESS,
        Err(error) => {
            eprintln!("second: {error}");
            ExitCode::from(2)
        }
    }
}

fn dispatch(words: &[&str]) -> io::Result<ExitCode> {
    match *words {
        ["generate", seed, count] => write_cases(number(seed)?, number(count)?, u64::MAX)?,
        ["generate", seed, count, words] => {
            write_cases(number(seed)?, number(count)?, number(words)?)?
        }
        ["answers"] => write_answers()?,
        ["texts"] => print!("{}", texts::answers(&io::read_to_string(io::stdin())?)),
        ["stats", seed, count] => write_stats(number(seed)?, number(count)?)?,
        ["show", seed, index] => show_case(number(seed)?, number(index)?)?,
        ["differ", description, first, second] => {
            print!("{}", differ::files::printed([description, first, second]))
        }
        ["differ-files", seed, index, folder] => {
            differ::files::write(number(seed)?, number(index)?, folder)?
        }
        #[cfg(feature = "library")]
        ["compare", ref numbers @ ..] => return compare(numbers, second::compare::compare),
        [command, ref numbers @ ..] => {
            let (verb, subject) = command.split_once('-').unwrap_or((command, ""));
            return about(verb, subject, numbers);
        }
        _ => return Err(invalid(USAGE)),
    }
    Ok(ExitCode::SUCCESS)
}

fn invalid(what: &str) -> io::Error {
    io::Error::new(io::ErrorKind::InvalidInput, what)
}

fn number(text: &str) -> io::Result<u64> {
    text.parse()
        .map_err(|_| invalid(&format!("not a number: {text}\n{USAGE}")))
}

fn write_cases(seed: u64, count: u64, words: u64) -> io::Result<()> {
    let count = u32::try_from(count).map_err(|_| invalid("more cases than a word can count"))?;
    let mut output = BufWriter::with_capacity(1 << 18, io::stdout().lock());
    output.write_all(&count.to_le_bytes())?;
    let cases = (0..).map(|index| generate::case(seed, index));
    let short = cases.filter(|case| case.words() as u64 <= words);
    for case in short.take(count as usize) {
        case.write(&mut output)?;
    }
    output.flush()
}

fn write_answers() -> io::Result<()> {
    let mut input = BufReader::with_capacity(1 << 18, io::stdin().lock());
    let mut output = BufWriter::with_capacity(1 << 18, io::stdout().lock());
    for _ in 0..case::read_word(&mut input)? {
        let case = Case::read(&mut input)?;
        writeln!(output, "{}", answers::answer(&case))?;
    }
    output.flush()
}

fn write_stats(seed: u64, count: u64) -> io::Result<()> {
    write!(io::stdout(), "{}", stats::gather(seed, count))
}

fn show_case(seed: u64, index: u64) -> io::Result<()> {
    let case = generate::case(seed, index);
    writeln!(io::stdout(), "{case}{}", answers::answer(&case))
}

fn about(verb: &str, subject: &str, numbers: &[&str]) -> io::Result<ExitCode> {
    match (verb, subject) {
        #[cfg(feature = "library")]
        ("compare", "descriptions") => compare(numbers, descriptions::compare::compare),
        #[cfg(feature = "library")]
        ("compare", "spelling") => compare(numbers, spelling::compare::compare),
        (_, "descriptions") => of_subject::<descriptions::case::Case>(verb, numbers),
        #[cfg(feature = "library")]
        ("compare", "differ") => compare(numbers, differ::compare::compare),
        #[cfg(feature = "library")]
        ("compare", "mend") => compare(numbers, mend::compare::compare),
        #[cfg(feature = "library")]
        ("compare", "convert") => compare(numbers, convert::compare::compare),
        #[cfg(feature = "library")]
        ("compare", "looked") => compare(numbers, looked::compare::compare),
        #[cfg(feature = "library")]
        ("compare", "sweep") => compare(numbers, sweep::compare::compare),
        #[cfg(feature = "library")]
        ("compare", "merge") => compare(numbers, merge::compare::compare),
        (_, "spelling") => of_subject::<spelling::case::Case>(verb, numbers),
        (_, "differ") => of_subject::<differ::case::Case>(verb, numbers),
        (_, "mend") => of_subject::<mend::case::Case>(verb, numbers),
        (_, "convert") => of_subject::<convert::case::Case>(verb, numbers),
        (_, "looked") => of_subject::<looked::case::Case>(verb, numbers),
        (_, "sweep") => of_subject::<sweep::case::Case>(verb, numbers),
        (_, "merge") => of_subject::<merge::case::Case>(verb, numbers),
        _ => Err(invalid(USAGE)),
    }
}

fn of_subject<S: Subject>(verb: &str, numbers: &[&str]) -> io::Result<ExitCode> {
    let mut output = BufWriter::with_capacity(1 << 18, io::stdout().lock());
    match (verb, numbers) {
        ("generate", [seed, count]) => {
            let count = u32::try_from(number(count)?);
            let count = count.map_err(|_| invalid("more cases than a word can count"))?;
            subject::generate::<S>(number(seed)?, count, &mut output)?;
        }
        ("answers", []) => {
            let mut input = BufReader::with_capacity(1 << 18, io::stdin().lock());
            subject::answer::<S>(&mut input, &mut output)?;
        }
        ("show", [seed, index]) => {
            let case = S::case(number(seed)?, number(index)?);
            writeln!(output, "{case}{}", case.line())?;
        }
        _ => return Err(invalid(USAGE)),
    }
    Ok(ExitCode::SUCCESS)
}

#[cfg(feature = "library")]
fn compare(numbers: &[&str], compare: fn(u64, u64) -> u64) -> io::Result<ExitCode> {
    match numbers {
        [seed, count] => Ok(verdict(compare(number(seed)?, number(count)?))),
        _ => Err(invalid(USAGE)),
    }
}

#[cfg(feature = "library")]
fn verdict(differing: u64) -> ExitCode {
    match differing {
        0 => ExitCode::SUCCESS,
        _ => ExitCode::from(1),
    }
}
