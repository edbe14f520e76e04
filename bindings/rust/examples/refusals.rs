//! Prints the guarded span of a small image at $C000, or why there is none.

fn main() {
    let image = [0xA9, 0x00, 0x85, 0xFB, 0xA9, 0xC1, 0x85, 0xFC, 0x91, 0xFB, 0x60];
    let entries = [0xC000];
    match image_reach::guarded_span_numbered(&image, 0xC000, &entries) {
        Ok(s) => println!("{:04X} to {:04X}, {} instructions", s.low, s.high, s.count),
        Err(refusal) => println!("no span: {refusal:?}, number {}", refusal as u8),
    }
    for r in image_reach::diagnose(&image, 0xC000, &entries).iter().flat_map(|d| &d.refusals) {
        println!("{:04X} {}, from {} entries", r.addr, r.cause.slug(), r.from_entries);
    }
}
