//! Prints what a path selects from the document on standard input: select PATH < DOCUMENT

use std::error::Error;
use std::io::{self, Read};
use std::process::ExitCode;

use jsonpath::{Document, JsonPath};

fn select() -> Result<(), Box<dyn Error>> {
    let text = std::env::args().nth(1).ok_or("usage: select PATH < DOCUMENT")?;
    let path = JsonPath::parse(&text)?;
    let mut bytes = Vec::new();
    io::stdin().read_to_end(&mut bytes)?;
    let document = Document::parse(&bytes)?;
    for node in &path.query(&document)? {
        println!("{}\t{}", node.location()?, node.json()?);
    }
    Ok(())
}

fn main() -> ExitCode {
    match select() {
        Ok(()) => ExitCode::SUCCESS,
        Err(error) => {
            eprintln!("{error}");
            ExitCode::FAILURE
        }
    }
}
