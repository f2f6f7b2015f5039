//! The damaged cases of `crates/demands/specs/DamageCases.antt`, which the checker
//! computes from the definitions: made by this generator, answered by the second
//! implementation.

mod asked;
mod case;
mod choice;
mod contest;
mod source;
mod text;

/// The seed of the cases.
const SEED: u64 = 1;

/// The whole file, or what the cases don't meet.
pub fn text() -> Result<String, String> {
    let tables = choice::tables()?;
    Ok(text::of(&tables))
}
