//! The program's words.

use std::error::Error;

#[derive(Debug)]
pub struct Words<'a> {
    pub folder: Option<&'a str>,
    /// Images of both float kinds in place of those of all.
    pub floats: bool,
    /// Only images with this in their names.
    pub only: Option<&'a str>,
    pub rounds: usize,
    pub plot: Option<&'a str>,
    pub counts: bool,
    pub times: bool,
    /// The words in front of this program that count, callgrind without them.
    pub counted_by: Option<&'a str>,
}

impl<'a> Words<'a> {
    /// Each at most once, and no other.
    pub fn of(words: &[&'a str]) -> Result<Words<'a>, Box<dyn Error>> {
        let mut read = Words {
            folder: None,
            floats: false,
            only: None,
            rounds: 15,
            plot: None,
            counts: true,
            times: true,
            counted_by: None,
        };
        let mut words = words.iter();
        while let Some(&word) = words.next() {
            let mut value = || {
                let value = words.next().copied();
                value.ok_or_else(|| format!("{word} needs a value"))
            };
            match word {
                "--folder" => read.folder = Some(value()?),
                "--floats" => read.floats = true,
                "--only" => read.only = Some(value()?),
                "--rounds" => {
                    let rounds = value()?;
                    read.rounds = rounds
                        .parse()
                        .map_err(|_| format!("--rounds {rounds}: not a number"))?;
                }
                "--plot" => read.plot = Some(value()?),
                "--counted-by" => read.counted_by = Some(value()?),
                "--no-counts" => read.counts = false,
                "--no-times" => read.times = false,
                _ => return Err(format!("unknown word {word}").into()),
            }
        }
        if !read.counts && !read.times {
            return Err("neither times nor counts: nothing to measure".into());
        }
        Ok(read)
    }
}

#[cfg(test)]
mod tests {
    use super::Words;

    #[test]
    fn known_and_unknown() {
        let words = Words::of(&["--rounds", "3", "--no-counts", "--plot", "x.svg"]).unwrap();
        assert!(words.rounds == 3 && words.times && !words.counts && !words.floats);
        assert!(Words::of(&["--floats"]).unwrap().floats);
        assert_eq!(words.plot, Some("x.svg"));
        assert_eq!(words.folder, None);
        for wrong in [
            &["folder"][..],
            &["--round", "3"],
            &["--rounds"],
            &["--rounds", "many"],
            &["--no-counts", "--no-times"],
        ] {
            assert!(Words::of(wrong).is_err(), "{wrong:?}");
        }
    }
}
