//! A desk during the act: in each second it asks the link for what the act says, and tells it what
//! came. The link is a trace, of which the act sees only what it brings. Prints a line a slot, then
//! what was shown, beside the plan that knew the link beforehand. `examples/run` runs it.
use film_planner::{count_marks, read_trace, Act, Job, Piece};
use std::{env, error::Error, fs};

fn tell(who: &str, marks: &[u8]) {
    print!("{who}: marks");
    for mark in marks {
        print!(" {mark}");
    }
    println!(", pictures {} of {}", count_marks(marks, 0), marks.len());
}

/// The first so many bytes of the asks.
fn print_part(asks: &[Piece], came: u32) {
    let mut left = came;
    for (k, piece) in asks.iter().enumerate() {
        let part = piece.bytes.min(left);
        if part == 0 {
            break;
        }
        left -= part;
        print!("{} {}.{} {part}", if k == 0 { ":" } else { "," }, piece.chunk, piece.layer);
    }
    println!();
}

fn main() -> Result<(), Box<dyn Error>> {
    // The film: 12 chunks of 2 seconds in three layers, 3 of them held at most.
    let film = Job { chunks: 12, span: 2, delay: 4, limit: 6, sizes: vec![6000, 3000, 4500], ..Job::default() };
    let trace = fs::read(env::args().nth(1).unwrap_or_else(|| "../samples/link.trace".into()))?;
    let link = read_trace(&trace, 26)?;

    let mut act = Act::new(Job { forecast: vec![0; link.len()], ..film.clone() })?;
    for carries in &link {
        let asked: u32 = act.asks().iter().map(|piece| piece.bytes).sum();
        let came = asked.min(*carries);
        print!("slot {} rate {} asked {asked} came {came}", act.slot(), act.rate());
        print_part(act.asks(), came);
        act.brought(came);
    }

    tell("act", &act.shown().marks);
    println!("verdict at slot {}: {}", link.len(), act.check().number());
    tell("the plan that knew the link", &Job { forecast: link, ..film }.plan()?.marks);
    Ok(())
}
