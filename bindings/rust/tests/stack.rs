//! The deepest texts are read on a stack of 1 MiB.

use std::thread;

#[test]
fn the_deepest_nests_fit_1_mib() {
    let nests = [
        "(", "{", "-", "fn(a:", "fn()", "fn()a{", "struct{a:", "struct{fn a()", "struct{fn a(b:",
        "struct ", "match ", "match a{", "match a{1=>", "if ", "if a{", "if a{}else if ", "a(",
        "a{b:", "a+(", "tuple{", "comptime{", "{while ", "{let a=", "{a=", "{return ",
    ];
    // A longer text has a table of its names on the stack too.
    let texts = nests.iter().flat_map(|nest| ["", " "].map(|behind| (nest, behind)));
    for (nest, behind) in texts {
        let text = format!("const a={}{}", nest.repeat(300), behind.repeat(2_000));
        let reading = thread::Builder::new().stack_size(1 << 20).spawn(move || plank::parse(&text));
        // An overflow would end the whole run.
        let refusal = reading.unwrap().join().unwrap().unwrap_err();
        assert_eq!(refusal.number(), 3, "{nest}");
    }
}
