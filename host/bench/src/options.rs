//! What to run.

use crate::case::Case;

pub const USAGE: &str = "usage: bench [--quick] [--row TEXT] [--plot FILE]
       bench --row TEXT --calls N --side kerbcanopy|reference
  --row TEXT     only the row \"entry: row\" of this name, or else all rows
                 with this text in their name
  --plot FILE    also draws the result, as SVG
  --quick        asks everything once, so that no time says anything
  --calls N      puts each row's question N times to the side named, for a
                 profiler, and times nothing";

#[derive(Default)]
pub struct Options {
    pub quick: bool,
    pub row: String,
    pub plot: Option<String>,
    pub profile: Option<(Side, u32)>,
}

#[derive(Clone, Copy)]
pub enum Side {
    Kerbcanopy,
    Reference,
}

impl Options {
    /// Reads the arguments, or says which one it can't use.
    pub fn read(mut arguments: impl Iterator<Item = String>) -> Result<Options, String> {
        let mut options = Options::default();
        let (mut side, mut calls) = (None, None);
        while let Some(argument) = arguments.next() {
            let mut value = || arguments.next().ok_or(format!("{argument} needs a value"));
            match argument.as_str() {
                "--quick" => options.quick = true,
                "--row" => options.row = value()?,
                "--plot" => options.plot = Some(value()?),
                "--side" => side = Some(side_named(&value()?)?),
                "--calls" => {
                    let parsed = value()?.parse();
                    calls = Some(parsed.map_err(|_| "--calls needs a number")?);
                }
                _ => return Err(format!("unknown argument {argument}")),
            }
        }
        options.profile = match (side, calls) {
            (Some(side), Some(calls)) => Some((side, calls)),
            (None, None) => None,
            _ => return Err("--side and --calls go together".into()),
        };
        Ok(options)
    }

    /// The rows wanted: the one of this very name, or all that have the text.
    pub fn chosen(&self, mut rows: Vec<Case>) -> Vec<Case> {
        if let Some(place) = rows.iter().position(|row| row.name() == self.row) {
            return vec![rows.swap_remove(place)];
        }
        rows.retain(|row| row.name().contains(&self.row));
        rows
    }
}

fn side_named(name: &str) -> Result<Side, String> {
    match name {
        "kerbcanopy" => Ok(Side::Kerbcanopy),
        "reference" => Ok(Side::Reference),
        _ => Err(format!("no side {name}")),
    }
}
