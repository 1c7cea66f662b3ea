//! Sends a block over a link that loses every third place, until it is delivered: `erasures TABLE`.

use std::error::Error;

fn main() -> Result<(), Box<dyn Error>> {
    let path = std::env::args().nth(1).ok_or("the path of a shift table is missing")?;
    let table = nr::Table::read(&std::fs::read(path)?)?;
    let settings = nr::Settings::new(2048);
    let mut receptions = Vec::new();
    for rv in [0, 2, 3, 1] {
        let tx = nr::Tx::new(120, 2).rv(rv);
        let mut heard = nr::send(&table, &settings, b"123456789", &tx)?;
        heard.iter_mut().step_by(3).for_each(|place| *place = nr::ERASED);
        receptions.push((tx, heard));
    }
    let receptions: Vec<_> = receptions.iter().map(|(tx, heard)| (*tx, &heard[..])).collect();
    let answer = nr::receive(&table, &settings, 72, &receptions)?;
    println!("{:?} {:?}", answer.outcomes, answer.left);
    println!("{}", String::from_utf8(answer.block.ok_or("the block is open")?)?);
    Ok(())
}
