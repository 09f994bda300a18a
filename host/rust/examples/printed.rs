//! The run that document 01 prints, step by step, and a withdrawal that takes all of it away.

use juntiqel::{add, withdraw, Controller, Refusal};

const TEXT: &[u8] = b"set rule part op i p a b
0 0 0 40 0 1 4095 2
1 1 1 1 -1 1 -2 -3
1 1 3 36 -9 3 -2 -3
2 1 2 3 -1 0 -9 -9
2 1 2 12 -1 0 2 0
2 1 3 23 -1 0 2 0
";

fn main() -> Result<(), Refusal> {
    let mut controller = Controller::load(TEXT)?;
    println!("sensed {:?}", controller.sense(&[add(1, 3, 1200)])?);
    while controller.phase() != 0 {
        println!("{:?}", controller.step()?);
    }
    controller.atoms().for_each(|x| println!("{x:?}"));
    controller.plans().for_each(|q| println!("{q:?}"));
    println!("withdrawn {:?}", controller.sense(&[withdraw(1, 3, 1200)])?);
    if let Err(refusal) = controller.answer(true) {
        println!("{refusal}");
    }
    Ok(())
}
