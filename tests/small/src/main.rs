//! Searches every table that two and three claimants reach, under the right
//! rules and under each of document 01's shortcuts that look harmless.
//!
//!     small [--texts] [--write FOLDER | --check FOLDER]
//!     small --under SHORTCUT < TEXT
//!
//! `--texts` prints the shortest schedules found as case texts, `--write` puts
//! them into a folder, and `--check` fails if the folder holds any others or
//! its README.md lacks one. It fails, too, if the right rules break a promise.
//! `--under` prints what a lock with that shortcut would print for a case text.

use model::report::{report, report_by};
use small::accounts::{self, Text};
use small::shortcuts::{Shortcut, Taken};
use std::io::{self, Read, Write};
use std::path::Path;
use std::process::ExitCode;
use std::{env, fs};

fn main() -> ExitCode {
    let args: Vec<String> = env::args().skip(1).collect();
    let mut words: Vec<&str> = args.iter().map(String::as_str).collect();
    if let ["--under", name] = words[..] {
        return under(name);
    }
    let print_texts = words.first() == Some(&"--texts");
    words.drain(..usize::from(print_texts));
    let good = match words[..] {
        [] => search_all(print_texts, |_| true),
        ["--write", folder] => search_all(print_texts, |texts| write(Path::new(folder), texts)),
        ["--check", folder] => search_all(print_texts, |texts| check(Path::new(folder), texts)),
        _ => {
            eprintln!("small [--texts] [--write FOLDER | --check FOLDER]");
            eprintln!("small --under SHORTCUT < TEXT");
            return ExitCode::FAILURE;
        }
    };
    if good {
        println!("small: all as promised");
        ExitCode::SUCCESS
    } else {
        println!("small: FAILED");
        ExitCode::FAILURE
    }
}

/// Searches all spaces, prints what was found, and hands the texts on.
fn search_all(print_texts: bool, hand_on: impl Fn(&[&Text]) -> bool) -> bool {
    let accounts = accounts::all();
    for account in &accounts {
        print!("{}", account.printed);
        for found in account.texts.iter().filter(|_| print_texts) {
            println!("--- {}.txt\n{}---", found.name, found.text);
        }
    }
    let texts: Vec<&Text> = accounts.iter().flat_map(|account| &account.texts).collect();
    let good = accounts.iter().all(|account| account.good);
    hand_on(&texts) && good
}

/// Writes the texts into a folder.
fn write(folder: &Path, texts: &[&Text]) -> bool {
    texts.iter().all(|found| {
        let path = folder.join(format!("{}.txt", found.name));
        let written = fs::write(&path, &found.text);
        if let Err(error) = &written {
            println!("{}: {error}", path.display());
        }
        written.is_ok()
    })
}

/// Prints the report of the text on standard input, under a shortcut.
fn under(name: &str) -> ExitCode {
    let Some(shortcut) = Shortcut::ALL
        .into_iter()
        .find(|shortcut| shortcut.name() == name)
    else {
        eprintln!(
            "small: the shortcuts are {:?}",
            Shortcut::ALL.map(Shortcut::name)
        );
        return ExitCode::FAILURE;
    };
    let mut text = Vec::new();
    let read = io::stdin().lock().read_to_end(&mut text);
    let printed = printed_under(shortcut, &text);
    match read.and_then(|_| io::stdout().lock().write_all(&printed)) {
        Ok(()) => ExitCode::SUCCESS,
        Err(error) => {
            eprintln!("small: {error}");
            ExitCode::FAILURE
        }
    }
}

/// What a lock with a shortcut would print for a text.
fn printed_under(shortcut: Shortcut, text: &[u8]) -> Vec<u8> {
    let mut out = Vec::new();
    report_by(&mut Taken::new(shortcut), &mut out, text);
    out
}

/// Whether a folder holds exactly these texts, and its README.md names each.
fn check(folder: &Path, texts: &[&Text]) -> bool {
    let mut good = true;
    let mut complain = |message: String| {
        println!("{message}");
        good = false;
    };
    let readme = fs::read_to_string(folder.join("README.md")).unwrap_or_default();
    for found in texts {
        let path = folder.join(format!("{}.txt", found.name));
        match fs::read_to_string(&path) {
            Ok(text) if text == found.text => {}
            Ok(_) => complain(format!("{} is not what the search finds", path.display())),
            Err(error) => complain(format!("{}: {error}", path.display())),
        }
        if printed_under(found.shortcut, found.text.as_bytes()) == report(found.text.as_bytes()) {
            complain(format!(
                "{}.txt doesn't tell the shortcut from the right rules",
                found.name
            ));
        }
        if !readme.contains(&format!("{}.txt", found.name)) {
            complain(format!("README.md has no line for {}.txt", found.name));
        }
    }
    let names: Vec<String> = fs::read_dir(folder)
        .map(|entries| {
            entries
                .flatten()
                .map(|e| e.file_name().to_string_lossy().into())
                .collect()
        })
        .unwrap_or_default();
    for name in names.iter().filter_map(|name| name.strip_suffix(".txt")) {
        if texts.iter().all(|found| found.name != name) {
            complain(format!("{name}.txt is nothing that the search finds"));
        }
    }
    good
}
