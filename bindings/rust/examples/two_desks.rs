use nelvaquist::{Answer, Refusal, Register};

fn main() -> Result<(), Refusal> {
    let mut register = Register::new();
    register.open(2)?;

    // Desk 1 enters 7.
    register.entry(1, 7)?;
    while register.turn(1)? == Answer::Read {}

    // Desk 2 asks for a page.
    register.page(2)?;
    loop {
        if let Answer::Page(page) = register.turn(2)? {
            println!("{:?} after event {}", page.words(), page.at()); // [7, 0] after event 9
            println!("last written {:?}", page.last()); // last written [6, 0]: row 2 never
            return Ok(());
        }
    }
}
