//! Prints what each form of the macros makes, by the crate with which this is compiled.
use interpolator::{ieprint, ieprintln, iprint, iprintln, list};

#[path = "../common/forms.rs"]
mod forms;

/// By the macros that print. What goes to the standard error is not compared.
fn print() {
    let (a, l) = (3, list![:?; 1, "t"]);
    iprint!("{a:03} {b:?};", a, b: ? = "x").unwrap();
    iprintln!("{l:i({:?})(, )}", l: i).unwrap();
    iprintln!("plain",).unwrap();
    println!(
        "{:?}",
        iprintln!("{c}", a).map_err(|error| error.to_string())
    );
    ieprint!("{a:#x};", a: x = 255).unwrap();
    ieprintln!("{a}", a).unwrap();
}

fn main() {
    print();
    for form in forms::all() {
        println!("{} => {:?}", form.source, form.made);
    }
}
