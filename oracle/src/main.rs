//! The second program: it answers the same call scripts as `replay`, and shares no line with it.

mod calls;
mod cause;
mod check;
mod check_pieces;
mod count;
mod count_check;
mod count_clock;
mod count_error_frames;
mod count_errors;
mod count_failed;
mod count_pids;
mod count_positions;
mod count_record;
mod count_recordings;
mod cuts;
mod damaged;
mod damaged_lengths;
mod engine;
mod filter;
mod frame;
mod framer;
mod hits;
mod listing;
mod pid;
mod pieces;
mod play;
mod position;
mod random;
mod reader;
mod record;
mod record_script;
mod recording;
mod recording_ends;
mod recording_frames;
mod recording_maker;
mod report;
mod script;
mod source;
mod state;
mod tape;
mod text;
mod ways;
mod writer;

use std::io::{self, Read, Write};
use std::process::ExitCode;

const USAGE: &str = "usage: oracle answer < script
       oracle count < script
       oracle line K < script
       oracle script SEED LINES
       oracle record < script > recording 2> answers
       oracle record-count < script
       oracle record-script SEED LINES
       oracle list < recording
       oracle list-pieces SIZE,SIZE,.. < recording
       oracle cuts < recording
       oracle recording SEED [FIELDS]
       oracle small-recording SEED FIELDS
       oracle recording-count < recording
       oracle cuts-count < recording
       oracle check < recording
       oracle check-pieces SIZE,SIZE,.. < recording
       oracle mend < recording > copy
       oracle mend-pieces SIZE,SIZE,.. < recording > copy
       oracle damaged SEED FIELDS
       oracle damaged-lengths SEED FIELDS
       oracle sound-recording SEED FIELDS
       oracle hits < recording
       oracle hits-lengths < recording
       oracle check-count < recording
       oracle check-cuts-count < recording
       oracle hits-count < recording
       oracle hits-lengths-count < recording";

fn main() -> ExitCode {
    let words: Vec<String> = std::env::args().skip(1).collect();
    let words: Vec<&str> = words.iter().map(String::as_str).collect();
    let made = of_scripts(&words)
        .or_else(|| of_recordings(&words))
        .or_else(|| of_mending(&words));
    let Some(made) = made else {
        eprintln!("{USAGE}");
        return ExitCode::from(2);
    };
    match made.and_then(|bytes| written(&bytes)) {
        Ok(()) => ExitCode::SUCCESS,
        Err(cause) => {
            eprintln!("oracle: {cause}");
            ExitCode::FAILURE
        }
    }
}

/// What is written on standard output; nothing where the words are no use of the program.
fn of_scripts(words: &[&str]) -> Option<io::Result<Vec<u8>>> {
    Some(match words {
        ["answer"] => input().map(|script| play::answers(&script)),
        ["count"] => input().map(|script| count::report(&script)),
        ["line", k] => {
            let k = k.parse().ok()?;
            input().map(|script| count::line_of(&script, k))
        }
        ["script", seed, lines] => Ok(script::make(seed.parse().ok()?, lines.parse().ok()?)),
        _ => return None,
    })
}

fn of_recordings(words: &[&str]) -> Option<io::Result<Vec<u8>>> {
    Some(match words {
        ["record"] => input().and_then(|script| {
            let (recording, answers) = record::play(&script);
            io::stderr().write_all(&answers).map(|()| recording)
        }),
        ["record-count"] => input().map(|script| count_record::report(&script)),
        ["record-script", seed, lines] => {
            let (seed, lines) = (seed.parse().ok()?, lines.parse().ok()?);
            Ok(record_script::make(seed, lines))
        }
        ["list"] => input().map(|recording| listing::list(&recording)),
        ["list-pieces", sizes] => {
            let sizes = pieces::sizes(sizes)?;
            input().map(|recording| pieces::list(&recording, &sizes))
        }
        ["cuts"] => input().map(|recording| cuts::list(&recording)),
        ["recording-count"] => input().map(|recording| count_recordings::report(&recording)),
        ["cuts-count"] => input().map(|recording| count_recordings::report_cuts(&recording)),
        ["recording", seed] => {
            let fields = recording_maker::DEFAULT_FIELDS;
            Ok(recording_maker::make(seed.parse().ok()?, fields))
        }
        ["recording", seed, fields] => {
            let (seed, fields) = (seed.parse().ok()?, fields.parse().ok()?);
            Ok(recording_maker::make(seed, fields))
        }
        ["small-recording", seed, fields] => {
            let (seed, fields) = (seed.parse().ok()?, fields.parse().ok()?);
            Ok(recording_maker::make_small(seed, fields))
        }
        _ => return None,
    })
}

fn of_mending(words: &[&str]) -> Option<io::Result<Vec<u8>>> {
    Some(match words {
        ["check"] => input().map(|recording| check::check(&recording)),
        ["mend"] => input().map(|recording| check::mend(&recording)),
        ["check-pieces", sizes] => {
            let sizes = pieces::sizes(sizes)?;
            input().map(|recording| check_pieces::check(&recording, &sizes))
        }
        ["mend-pieces", sizes] => {
            let sizes = pieces::sizes(sizes)?;
            input().map(|recording| check_pieces::mend(&recording, &sizes))
        }
        ["hits"] => input().map(|recording| hits::lines(&hits::hits(&recording))),
        ["hits-lengths"] => input().map(|recording| hits::lines(&hits::hits_lengths(&recording))),
        ["check-count"] => input().map(|recording| count_check::report(&recording)),
        ["check-cuts-count"] => input().map(|recording| count_check::report_cuts(&recording)),
        ["hits-count"] => input().map(|recording| count_check::report_hits(&recording)),
        ["hits-lengths-count"] => {
            input().map(|recording| count_check::report_hits_lengths(&recording))
        }
        [what, seed, fields] => {
            let make = match *what {
                "damaged" => damaged::make,
                "damaged-lengths" => damaged_lengths::make,
                "sound-recording" => recording_maker::make_sound,
                _ => return None,
            };
            Ok(make(seed.parse().ok()?, fields.parse().ok()?))
        }
        _ => return None,
    })
}

/// A short output would else stay in the buffer, and a full disk would not be noticed.
fn written(bytes: &[u8]) -> io::Result<()> {
    let mut out = io::stdout();
    out.write_all(bytes)?;
    out.flush()
}

fn input() -> io::Result<Vec<u8>> {
    let mut script = Vec::new();
    io::stdin().read_to_end(&mut script)?;
    Ok(script)
}
