//! Prints every bench figure of document 01, as amended, as the reference works it out.

fn main() {
    print!("{}", reference::figures::page());
}
