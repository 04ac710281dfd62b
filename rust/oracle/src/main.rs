//! The program `oracle`: answers queries from standard input, or writes a file of answers.

use answers::Answer;
use std::io::{self, BufRead, BufWriter, Write};
use std::process::ExitCode;

const HELP: &str = "\
oracle answers queries by asking the Rust crate httparse 1.10.1.

oracle           reads queries from standard input, one a line, and writes one answer a line
oracle record    writes the recorded answers: oracle record > recorded/answers.tsv
oracle sample    writes more answers, as rows of numbers: oracle sample > crates/replay/stdin
oracle --help    writes this text

A query is four columns separated by TABs:
  call       request, response, headers or chunk-size
  settings   default, or names joined by `+` in this order: spaces-after-header-name
             multiline-headers multiple-spaces-in-request-line multiple-spaces-in-status-line
             space-before-first-header-name ignore-invalid-headers-in-responses
             ignore-invalid-headers-in-requests; headers and chunk-size take default only
  slots      how many headers there is room for, at most 65536; without effect on a chunk-size
  input      in double quotes: printable ASCII, and \\\\ \\\" \\r \\n \\t \\xHH

An answer is one of these; OFFSET+LENGTH is a piece of the input, `-` a field not set:
  OUTCOME method=0+3 target=4+1 version=1 headers=[17+4:23+5] untouched=2
  OUTCOME version=1 code=200 reason=13+2 headers=[] untouched=3
  OUTCOME headers=[] untouched=4
  complete 3 size=0, incomplete, or error InvalidChunkSize at 4
where OUTCOME is `complete` and the number of bytes read, or `incomplete`, or `error NAME at` and
its position; headers are the slots that were written, each NAME:VALUE; untouched is the number of
the others. An empty reason is reason=+0.

httparse does not tell the position of an error: oracle asks it about every beginning of the input,
and the last byte of the least that is the error has decided. For TooManyHeaders the position is
that of the header's name that one slot more would hold.

A line that is no query is answered `refused`, and standard error says why; then the exit status
is 1 in the end, otherwise 0. Wrong arguments have status 2.

The form of a row of the sample is told in rust/oracle/src/sample/row.rs.
";

fn main() -> ExitCode {
    let arguments: Vec<String> = std::env::args_os()
        .skip(1)
        .map(|argument| argument.to_string_lossy().into_owned())
        .collect();
    let arguments: Vec<&str> = arguments.iter().map(String::as_str).collect();
    match arguments[..] {
        [] => status_of(answer_lines(&mut io::stdin().lock())),
        ["record"] => write_made(oracle::record::text()),
        ["sample"] => write_made(oracle::sample::text()),
        ["--help"] => status_of(write_out(HELP)),
        _ => {
            eprintln!(
                "oracle: the arguments `{}` mean nothing; write none, `record`, `sample` or `--help`",
                arguments.join(" ")
            );
            ExitCode::from(2)
        }
    }
}

/// The exit status of a run that could fail while reading or writing.
fn status_of(done: io::Result<ExitCode>) -> ExitCode {
    done.unwrap_or_else(|error| fail(&format!("cannot read or write: {error}")))
}

fn fail(what: &str) -> ExitCode {
    eprintln!("oracle: {what}");
    ExitCode::FAILURE
}

fn write_out(text: &str) -> io::Result<ExitCode> {
    io::stdout().lock().write_all(text.as_bytes())?;
    Ok(ExitCode::SUCCESS)
}

/// Writes a whole file, or says why it could not be made.
fn write_made(file: Result<String, String>) -> ExitCode {
    match file {
        Ok(text) => status_of(write_out(&text)),
        Err(what) => fail(&what),
    }
}

/// Writes a line for each line read, whatever it holds, so that the two can be set side by side.
fn answer_lines(queries: &mut impl BufRead) -> io::Result<ExitCode> {
    let mut out = BufWriter::new(io::stdout().lock());
    let mut status = ExitCode::SUCCESS;
    for (index, line) in queries.split(b'\n').enumerate() {
        match answer_line(&line?) {
            Ok(answer) => writeln!(out, "{answer}")?,
            Err(what) => {
                writeln!(out, "refused")?;
                eprintln!("oracle: line {}: {what}", index + 1);
                status = ExitCode::FAILURE;
            }
        }
    }
    out.flush()?;
    Ok(status)
}

fn answer_line(line: &[u8]) -> Result<Answer, String> {
    let text = std::str::from_utf8(line).map_err(|error| {
        format!(
            "byte {} is no ASCII; write it as \\xHH",
            error.valid_up_to() + 1
        )
    })?;
    oracle::answer(&text.parse()?)
}
