//! Job files of the shape check.
//!
//! `jobs play < cases.job > cases.out` plays `node` and `shape` commands on the plain check.
//! `jobs write START COUNT SIZE > programs.job` writes COUNT programs of SIZE nodes, each of them
//! followed by three damaged variants.
mod plain;
mod programs;

use plain::{Fault, MAX_NODES, Node, check_shape};
use programs::{Rng, damage, program};
use std::io::{self, BufWriter, Write};
use std::process::ExitCode;

/// The node of a `node KIND SIZE WORD` command, if each number fits.
fn node(words: &[&str]) -> Option<Node> {
    let &[kind, size, word] = words else {
        return None;
    };
    Some(Node {
        kind: kind.parse().ok()?,
        size: size.parse().ok()?,
        word: word.parse().ok()?,
    })
}

fn play(out: &mut impl Write) -> io::Result<()> {
    let mut batch = Vec::new();
    for (number, line) in (1..).zip(io::stdin().lines()) {
        let line = line?;
        let command = line.split('#').next().unwrap_or("");
        let words: Vec<&str> = command.split_whitespace().collect();
        match words.as_slice() {
            [] => {}
            ["node", rest @ ..] => match node(rest) {
                Some(node) => batch.push(node),
                None => writeln!(out, "line {number}: not a node")?,
            },
            ["shape"] => {
                match check_shape(&batch) {
                    Ok(()) => writeln!(out, "shape: ok")?,
                    Err(Fault::Length) => writeln!(out, "shape: refused 1")?,
                    Err(Fault::Layout(at)) => writeln!(out, "shape: refused 2 at {at}")?,
                    Err(Fault::Word(at)) => writeln!(out, "shape: refused 3 at {at}")?,
                    Err(Fault::Depth(at)) => writeln!(out, "shape: refused 4 at {at}")?,
                }
                batch.clear();
            }
            _ => writeln!(out, "line {number}: no such command")?,
        }
    }
    Ok(())
}

fn put(out: &mut impl Write, title: &str, batch: &[Node]) -> io::Result<()> {
    writeln!(out, "# {title}")?;
    for node in batch {
        writeln!(out, "node {} {} {}", node.kind, node.size, node.word)?;
    }
    writeln!(out, "shape")
}

fn write(out: &mut impl Write, start: u64, count: usize, size: usize) -> io::Result<()> {
    let mut rng = Rng(start);
    for number in 1..=count {
        let sound = program(&mut rng, size);
        put(out, &format!("program {number}"), &sound)?;
        for variant in 1..=3 {
            let mut batch = sound.clone();
            damage(&mut rng, &mut batch);
            put(
                out,
                &format!("program {number}, damaged, {variant}"),
                &batch,
            )?;
        }
    }
    Ok(())
}

/// Does what the arguments ask; answers false if they ask nothing that there is.
fn run(args: &[&str]) -> io::Result<bool> {
    let mut out = BufWriter::new(io::stdout().lock());
    match *args {
        ["play"] => play(&mut out)?,
        ["write", start, count, size] => match (start.parse(), count.parse(), size.parse()) {
            (Ok(start), Ok(count), Ok(size)) if (32..=MAX_NODES).contains(&size) => {
                write(&mut out, start, count, size)?
            }
            _ => return Ok(false),
        },
        _ => return Ok(false),
    }
    out.flush()?;
    Ok(true)
}

fn main() -> ExitCode {
    let args: Vec<String> = std::env::args().skip(1).collect();
    let args: Vec<&str> = args.iter().map(String::as_str).collect();
    match run(&args) {
        Ok(true) => ExitCode::SUCCESS,
        Ok(false) => {
            eprintln!(
                "usage: jobs play | jobs write START COUNT SIZE (SIZE from 32 to {MAX_NODES})"
            );
            ExitCode::from(2)
        }
        Err(error) => {
            eprintln!("jobs: {error}");
            ExitCode::FAILURE
        }
    }
}
