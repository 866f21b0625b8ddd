//! May person 600, in role 0 at origin 0, read record 0 for treatment? The argument is a card file.

use std::error::Error;

use newelsage::{Basis, Ledger, Request};

fn main() -> Result<(), Box<dyn Error>> {
    let name = std::env::args_os().nth(1).ok_or("usage: decision CARD")?;
    let ledger = Ledger::read(&std::fs::read(name)?)?;
    let decision = ledger.decide(Request {
        person: 600,
        role: 0,
        origin: 0,
        record: 0,
        purpose: 0,
    })?;
    let may = if decision.permits() { "may" } else { "may not" };
    let basis = match decision.basis {
        Basis::Patient => "the patient asks".to_string(),
        Basis::Author => "the author asks".to_string(),
        Basis::Directive(number) => format!("directive {number}"),
        Basis::Default => "default consent".to_string(),
    };
    println!("person 600 {may} read record 0: {basis}");
    Ok(())
}
