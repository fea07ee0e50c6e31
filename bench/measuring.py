"""Builds programs over the crates of this repository that have another `main`, without proofs; among them one that answers one query
of a file by so many workers with so many pads each, which no option of the user's command line asks for, and tells what that took. Where it
is asked to be slow, whoever begins or ends a goal yields some times first, so that other workers come in also where a search is short."""

import pathlib, shutil, subprocess, sys, tempfile

here = pathlib.Path(__file__).resolve().parent.parent

# On standard output what `run` writes for the query; on standard error a line of figures; the status of `run`.
MEASURING = """//! One query, by so many workers with so many pads each.
#![tactic(auto)]

use ap_outside::{FileErr, Files, Gate, Halt, Spot, StdFiles, StdSink, put_line};
use ap_top::{BOUNDS, Bounds, Crew, End, LIMIT, Status, answer};
use crossbeam_utils::Backoff;
use crossbeam_utils::atomic::AtomicCell;
use std::alloc::Global;
use std::process::ExitCode;
use std::random::RandomSource;
use std::sync::Wait;
use std::thread::Threads;
use std::{env, io};

/// Whoever passes yields fewer times than so many, by numbers that follow one another.
#[derive(Drop)]
struct Slow {
    most: u64,
    state: AtomicCell<u64>,
}

impl Gate for Slow {
    fn pass(&self, _spot: Spot) {
        if self.most == 0 {
            return;
        }
        let next = (1_103_515_245 * self.state.load() + 12_345) % 2_147_483_648;
        self.state.store(next);
        let backoff = Backoff::new();
        for _ in 0..next / 65_536 % self.most {
            backoff.snooze();
        }
    }
}

fn number(text: &str) -> u64 {
    text.parse::<u64>().unwrap_or(0)
}

fn measured<R: Threads + Wait + RandomSource + Sync>(rt: &HostRuntime, threads: &R, words: &[&str]) -> io::Result<Status> {
    let alloc = rt.alloc();
    let mut files = StdFiles::new(rt);
    let mut text = Vec::new(alloc);
    match files.read(words[1], &mut text, LIMIT) {
        Ok(_) => {}
        Err(FileErr::NoMemory) => return Ok(Status::NoMemory),
        Err(FileErr::Failed) => return Ok(Status::FileFault),
    }
    let slow = Slow { most: number(words[7]), state: AtomicCell::new(number(words[7])) };
    let crew = Crew { rt: threads, gate: &slow, workers: number(words[3]) as u32 };
    let bounds = Bounds { budget: number(words[5]), answers: number(words[6]), kind: BOUNDS.kind };
    let mut out = StdSink::new(rt.stdout());
    let ended = match answer(alloc, &crew, text.as_slice(), words[2].as_bytes(), bounds, &mut out, number(words[4]) as u32) {
        Ok(Some(ended)) => ended,
        Ok(None) => return Ok(Status::QueryRefused),
        Err(Halt::NoMemory) => return Ok(Status::NoMemory),
        Err(Halt::Sink) => return Ok(Status::SinkFault),
    };
    let (line, status) = match ended.end {
        End::NoMore => ("no more.\\n", Status::Done),
        End::Spent => ("budget spent.\\n", Status::BudgetSpent),
        End::Stopped => ("stopped.\\n", Status::Done),
        End::Error(_) => ("error\\n", Status::Done),
    };
    match put_line(line.as_bytes(), &mut out) {
        Ok(()) => {}
        Err(Halt::NoMemory) => return Ok(Status::NoMemory),
        Err(Halt::Sink) => return Ok(Status::SinkFault),
    }
    let charged = ended.charged;
    let total = ended.total.sum;
    let taken = ended.taken;
    let stolen = ended.stolen;
    // What is told is no part of the answer: it may want memory.
    match eprintln!(rt; "charged {charged} total {total} taken {taken} stolen {stolen}") {
        Ok(()) => Ok(status),
        Err(_) => Ok(status),
    }
}

fn run_args<R: Threads + Wait + RandomSource + Sync>(rt: &HostRuntime, threads: &R, alloc: Global) -> io::Result<Status> {
    let args: Vec<String> = env::args(rt)?.collect(alloc)?;
    let mut words = Vec::new(alloc);
    for arg in &args {
        words.push(arg.as_str())?;
    }
    if words.len() != 8 {
        println!(rt; "ready")?;
        return Ok(Status::Done);
    }
    measured(rt, threads, &words)
}

fn main(rt: HostRuntime) -> ExitCode {
    match run_args(&rt, &rt, rt.alloc()) {
        Ok(status) => ExitCode::from(status.number()),
        Err(_) => ExitCode::from(Status::NoMemory.number()),
    }
}
"""


def replaced(root, name, old, new):
    """Edits a file of a copy, in which the old text stands once."""
    file = root / name
    text = file.read_text()
    if text.count(old) != 1:
        sys.exit(f"{pathlib.Path(sys.argv[0]).name}: {name} has another form, the edits of bench/ are to be written anew: {old}")
    file.write_text(text.replace(old, new))


def built(made, by, main, edits=(), more=(), is_planted=False):
    """Builds a program whose `main` is that text, which says `ready` where it has no words, or the program's own where it is None, unless it is
    there and newer than all sources and the files that make it. `edits` are files of the copy with what stands there once and what comes in its place, `more`
    files with what stands behind their end."""
    sources = [pathlib.Path(__file__).resolve(), *by, *here.glob("crates/*/src/**/*.rt"), *here.glob("crates/*/specs/**/*.antt")]
    if not is_planted and made.exists() and made.stat().st_mtime > max(it.stat().st_mtime for it in sources):
        return made
    made.parent.mkdir(parents=True, exist_ok=True)
    with tempfile.TemporaryDirectory() as room:
        root = pathlib.Path(room)
        for name in ("scripts", "crates"):
            shutil.copytree(here / name, root / name, ignore=shutil.ignore_patterns("out"))
        shutil.copy(here / "crates.txt", root)
        for edit in edits:
            replaced(root, *edit)
        for name, text in more:
            (root / name).write_text((root / name).read_text() + text)
        program = root / "crates/andprolog"
        if main is not None:
            (program / "src/main.rt").write_text(main)
            (program / "args").write_text("")
            (program / "stdout").write_text("ready\n")
        subprocess.run(["bash", root / "scripts/build-unproved", made], check=True)
    return made


def measuring():
    """The program that measures: FILE QUERY WORKERS PADS BUDGET ANSWERS YIELDS, where no YIELDS are 0."""
    edits = [("crates.txt", "andprolog: ap_top ap_outside", "andprolog: ap_top ap_outside crossbeam_utils")]
    return built(here / "out/unproved/measuring", (), MEASURING, edits)


def figures(said):
    """The figures that it told, by their names; none where it came to no end."""
    for line in said.splitlines():
        words = line.split()
        if words[:1] == ["charged"]:
            return {name: int(count) for name, count in zip(words[::2], words[1::2])}
    return None
