//! A first caller in Rust: the amplitude of a level, and the parity of a message. README shows how to build it.
fn main() {
    let amplitude = more1090::level(315).expect("a level of at most 200.0 dB");
    println!("31.5 dB: amplitude {amplitude}; parity {:06x}", more1090::parity(&[0x58, 0, 0, 0, 0xe0, 0xef, 0x0d]));
}
