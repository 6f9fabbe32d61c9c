//! The checks in a program with `std`, where a refusal is an error as any other.

#[path = "checks.rs"]
mod checks;
#[path = "../../include/corkhollow.rs"]
mod corkhollow;

use std::error::Error;

fn refused() -> Result<(), Box<dyn Error>> {
    checks::a_refusal()?;
    Ok(())
}

fn main() -> Result<(), Box<dyn Error>> {
    checks::all()?;
    match refused() {
        Err(why) if why.to_string().starts_with("refusal 1: ") => Ok(()),
        other => Err(format!("a refusal as an error: {other:?}").into()),
    }
}
