//! Writes cases. The same words on the command line give the same cases everywhere.

use std::io::Read;
use std::process::ExitCode;

use cases::case::Case;
use cases::families as all;
use cases::mix::{self, MIXTURES};
use cases::script;

const USAGE: &str = "usage:
  generate list                         the first list
  generate small FRAMES VARIANTS        every tree of so many frames, so many variants a frame (1 to 10)
  generate orders COUNT                 so many reports (1 to 5) joined in every order
  generate mix|marked|io|long|drive SEED COUNT
                                        random cases
  generate scripts SEED COUNT           random commissioning scripts as cases
  generate script NAME                  the script on standard input as a case";

fn main() -> ExitCode {
    let words: Vec<String> = std::env::args().skip(1).collect();
    let words: Vec<&str> = words.iter().map(String::as_str).collect();
    match cases(&words) {
        Ok(cases) => {
            cases.iter().for_each(|case| print!("{case}"));
            ExitCode::SUCCESS
        }
        Err(why) => {
            eprintln!("{why}");
            ExitCode::FAILURE
        }
    }
}

fn cases(words: &[&str]) -> Result<Vec<Case>, String> {
    let number = |word: &str| word.parse::<usize>().map_err(|why| format!("{word}: {why}"));
    match *words {
        ["list"] => first_list(),
        ["small", frames, variants] => match (number(frames)?, number(variants)?) {
            (frames @ 1..=6, variants @ 1..=10) => Ok(all::small(frames, variants)),
            _ => Err(USAGE.into()),
        },
        ["orders", count] => match number(count)? {
            count @ 1..=5 => Ok([all::row_orders(count), all::pair_orders(count)].concat()),
            _ => Err(USAGE.into()),
        },
        ["scripts", seed, count] => script::random(number(seed)? as u64, number(count)?),
        ["script", name] => {
            let mut script = String::new();
            std::io::stdin().read_to_string(&mut script).map_err(|why| why.to_string())?;
            Ok(vec![script::case(name, &script)?])
        }
        [mixture, seed, count] => {
            let mixture = MIXTURES.into_iter().find(|known| known.name == mixture).ok_or(USAGE)?;
            Ok(mix::cases(mixture, number(seed)? as u64, number(count)?))
        }
        _ => Err(USAGE.into()),
    }
}

/// Some hundreds of cases: the listed families, the smallest trees in full, and random ones of each mixture.
fn first_list() -> Result<Vec<Case>, String> {
    let mut list = Vec::new();
    (1..=5).for_each(|frames| list.extend(all::small(frames, 1)));
    (1..=2).for_each(|frames| list.extend(all::small(frames, 10)));
    list.extend(all::small(3, 4));
    (1..=3).for_each(|count| list.extend([all::row_orders(count), all::pair_orders(count)].concat()));
    let families =
        [all::equal_errors, all::markers, all::deep, all::wide, all::io_kinds, all::authentication, all::class_pairs];
    families.iter().for_each(|family| list.extend(family()));
    list.extend([all::drive_errors(), all::calls()].concat());
    list.push(script::case("script-three-gauges", "new 6\nnew 1\nall 19\n")?);
    list.extend(script::random(1, 30)?);
    for (mixture, count) in MIXTURES.into_iter().zip([60, 40, 30, 8, 20]) {
        list.extend(mix::cases(mixture, 1, count));
    }
    Ok(list)
}
