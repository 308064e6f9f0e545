//! sat_oracle: the Rust's reading of a body as document 01's output line, as a field listing or
//! as a plain body, with a case generator and a tally. README.md beside src/ tells the use.

extern crate alloc;

mod error;
mod gen;
mod hex;
mod tables;
mod tally;
mod traits;

use std::io::{self, BufRead, BufWriter, Write};
use tables::sat::helper;

/// Bytes that document 01's program reads at most: the id and a body one byte over the limit.
const PROGRAM_INPUT: usize = 4098;

const USE: &str = "use: sat_oracle ledger|whole|fields|plain|count < cases
     sat_oracle gen SEED COUNT [MAXLEN]
     sat_oracle long SEED COUNT";

fn main() {
    let args: Vec<String> = std::env::args().skip(1).collect();
    let mut out = BufWriter::new(io::stdout().lock());
    let done = match args.iter().map(String::as_str).collect::<Vec<_>>()[..] {
        ["ledger"] => each_case(&mut out, |out, case| writeln!(out, "{}", program_line(case))),
        ["whole"] => each_case(&mut out, |out, case| writeln!(out, "{}", line(case))),
        ["plain"] => each_case(&mut out, |out, case| writeln!(out, "{}", plain_line(case))),
        ["fields"] => each_case(&mut out, listing),
        ["count"] => tally(&mut out),
        ["gen", seed, count] => generate(&mut out, seed, count, "5000"),
        ["gen", seed, count, longest] => generate(&mut out, seed, count, longest),
        ["long", seed, count] => generate_long(&mut out, seed, count),
        _ => fail(USE),
    };
    done.and_then(|()| out.flush()).unwrap_or_else(|e| fail(&e.to_string()));
}

fn fail(text: &str) -> ! {
    eprintln!("{text}");
    std::process::exit(2);
}

fn number(text: &str) -> u64 {
    text.parse().unwrap_or_else(|_| fail(USE))
}

/// Hands every case line of standard input, as bytes, to `todo`.
fn each_case<W: Write>(
    out: &mut W,
    mut todo: impl FnMut(&mut W, &[u8]) -> io::Result<()>,
) -> io::Result<()> {
    for (i, text) in io::stdin().lock().lines().enumerate() {
        match hex::bytes(text?.trim()) {
            Some(case) => todo(out, &case)?,
            None => fail(&format!("line {} is not hexadecimal", i + 1)),
        }
    }
    Ok(())
}

/// The line of document 01's program, which cuts longer input.
fn program_line(case: &[u8]) -> String {
    line(&case[..case.len().min(PROGRAM_INPUT)])
}

/// The same for the whole case, however long.
fn line(case: &[u8]) -> String {
    match case.split_first() {
        None => "no input".to_string(),
        Some((&id, body)) => match helper::ledger(id, body) {
            Ok(bytes) => hex::text(&bytes),
            Err(refusal) => refusal.to_string(),
        },
    }
}

/// The Rust's own writing of the body; `-` for an empty one, `W` where its writer refuses.
fn plain_line(case: &[u8]) -> String {
    let Some((&id, body)) = case.split_first() else {
        return "no input".to_string();
    };
    match helper::read(id, body).map(|sat| helper::plain_body(&sat)) {
        Ok(Ok(bytes)) if bytes.is_empty() => "-".to_string(),
        Ok(Ok(bytes)) => hex::text(&bytes),
        Ok(Err(error)) => format!("W {error:?}"),
        Err(refusal) => refusal.to_string(),
    }
}

/// A heading with the id and the body's length, the fields, the entries' ids, and an empty line.
fn listing<W: Write>(out: &mut W, case: &[u8]) -> io::Result<()> {
    let Some((&id, body)) = case.split_first() else {
        return writeln!(out, "case no input\n");
    };
    writeln!(out, "case id {id} bytes {}", body.len())?;
    match helper::read(id, body) {
        Ok(sat) => {
            let ids: String = helper::ids(&sat).iter().map(|id| format!(" {id}")).collect();
            writeln!(out, "{}ids{ids}\n", helper::fields(&sat, body).listing())
        }
        Err(refusal) => writeln!(out, "{refusal}\n"),
    }
}

fn tally<W: Write>(out: &mut W) -> io::Result<()> {
    let mut tally = tally::Tally::default();
    each_case(out, |_, case| {
        if let Some((&id, body)) = case.split_first() {
            tally.add(id, body);
        }
        Ok(())
    })?;
    write!(out, "{}", tally.text())
}

fn generate<W: Write>(out: &mut W, seed: &str, count: &str, longest: &str) -> io::Result<()> {
    let (seed, longest) = (number(seed), number(longest) as usize);
    for i in 0..number(count) {
        let case = gen::case(seed, i, longest, gen::Clocks::Any);
        writeln!(out, "{}", hex::text(&case))?;
    }
    Ok(())
}

fn generate_long<W: Write>(out: &mut W, seed: &str, count: &str) -> io::Result<()> {
    let seed = number(seed);
    for i in 0..number(count) {
        writeln!(out, "{}", hex::text(&gen::long_case(seed, i, gen::Clocks::Any)))?;
    }
    Ok(())
}
