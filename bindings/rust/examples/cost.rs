//! So many calls on the text of the README, or on the module on standard input: `cost text|module COUNT`.
use std::env;
use std::io::{self, Read};

const LIST: &str = "sccp,simplify-cfg,dce";
const TEXT: &str = "func { b0(): c = const 1; x = const 5; cbr c b1(x) b2(); b1(p): br b3(p); b2(): y = const 6; br b3(y); b3(q): ret q }";

fn main() -> io::Result<()> {
    let words: Vec<String> = env::args().collect();
    let count: u32 = words.get(2).and_then(|word| word.parse().ok()).unwrap_or(1);
    let is_module = words.get(1).map(String::as_str) == Some("module");
    let mut text = TEXT.to_owned();
    if is_module {
        text.clear();
        io::stdin().read_to_string(&mut text)?;
    }
    let call = |text: &str| {
        if is_module {
            rachonpas::optimise_mlir(LIST, text)
        } else {
            rachonpas::optimise(LIST, text)
        }
    };
    let bytes: usize = (0..count)
        .filter_map(|_| call(&text).ok())
        .map(|answer| answer.text.len())
        .sum();
    println!("{bytes}");
    Ok(())
}
