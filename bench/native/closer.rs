//! `close` without its proof: reads a game and a certificate, and writes a closer one. It says on standard error how long
//! that took.
use rattle_std::Global;
use std::io::{Read, Write};

fn main() {
    let rounds = std::env::args().nth(1).map_or(100, |word| word.parse().expect("a number of rounds"));
    let mut bytes = Vec::new();
    std::io::stdin().read_to_end(&mut bytes).expect("an input");
    let (game, end) = game_text::read(Global, &bytes).expect("a game");
    let certificate = cert_text::read(Global, &game, &bytes[end..]).expect("a certificate");
    let gap = certificate.gap;
    let start = std::time::Instant::now();
    let closer = closing::close(Global, &game, certificate, rounds, &gap).expect("memory");
    eprintln!("{:.3} s", start.elapsed().as_secs_f64());
    let text = cert_text::print(Global, &game, &closer).expect("memory");
    std::io::stdout().write_all(&text).expect("an output");
}
