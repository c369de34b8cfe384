//! Makes the samples under examples/: `sample FOLDER` writes FOLDER/sample.h, and into
//! FOLDER/sample image.bin, image.hex (the same as Intel HEX), key.bin (a test key and the model)
//! and signature.bin, over the manifest of that image. They are always the same.
#![allow(dead_code)]

mod lms;
mod manifest;
mod rng;
mod sender;
mod sha256;
mod signer;
mod tree;

use std::fmt::Write;
use std::fs;

const MODEL: u32 = 7;
const BLOCK_LENGTH: u32 = 64;
/// The upper half of the image's addresses in image.hex.
const UPPER: u16 = 0x0800;

fn array(name: &str, bytes: &[u8]) -> String {
    let mut text = format!("\nstatic const uint8_t {name}[{}] = {{\n", bytes.len());
    for row in bytes.chunks(24) {
        let row: Vec<String> = row.iter().map(|b| format!("{b:#04x}")).collect();
        writeln!(text, "    {},", row.join(", ")).expect("text");
    }
    text + "};\n"
}

/// A line of Intel HEX, without its end.
fn record(address: u16, kind: u8, data: &[u8]) -> String {
    let head = [data.len() as u8, (address >> 8) as u8, address as u8, kind];
    let mut bytes = [&head, data].concat();
    bytes.push(bytes.iter().fold(0, |sum: u8, b| sum.wrapping_sub(*b)));
    bytes
        .iter()
        .fold(":".to_string(), |line, b| line + &format!("{b:02X}"))
}

fn lines(image: &[u8]) -> Vec<String> {
    let mut lines = vec![record(0, 4, &UPPER.to_be_bytes())];
    for (i, piece) in image.chunks(16).enumerate() {
        lines.push(record(16 * i as u16, 0, piece));
    }
    lines.push(record(0, 1, &[]));
    lines
}

/// The lines as a string of C.
fn string(name: &str, lines: &[String]) -> String {
    let lines: Vec<String> = lines.iter().map(|l| format!("    \"{l}\\n\"")).collect();
    format!("\nstatic const uint8_t {name}[] =\n{};\n", lines.join("\n"))
}

fn main() -> std::io::Result<()> {
    let folder = std::env::args().nth(1).expect("a folder");
    let image: Vec<u8> = (0..300u32).map(|i| (7 * i + 3) as u8).collect();
    let mut updated = image.clone();
    *updated.last_mut().expect("a byte") ^= 1;
    let mut rng = rng::Rng::new(1, 0);
    let signer = signer::Signer::new(&mut rng, 5, 4);
    let mut sign = |image: &[u8], serial: u32| {
        let order = sender::Order {
            image,
            block_length: BLOCK_LENGTH,
            model: MODEL,
            serial,
        };
        signer.sign(&mut rng, &order.manifest().expect("a manifest"))
    };
    let signature = sign(&image, 1);
    let update_signature = sign(&updated, 2);
    let text = lines(&image);
    let header = "/* A test key (LMS height 5, 8-bit digits), its signatures over the manifests of download.c's image and of its update, and that \
                  image as Intel HEX from\n * address 0x08000000 on. Made by tests/model/sample.rs. */\n#include <stdint.h>\n";
    let arrays = array("sample_key", &signer.key)
        + &array("sample_signature", &signature)
        + &array("sample_update_signature", &update_signature)
        + &string("sample_text", &text);
    fs::write(format!("{folder}/sample.h"), header.to_string() + &arrays)?;
    fs::create_dir_all(format!("{folder}/sample"))?;
    let key = [&signer.key[..], &MODEL.to_be_bytes()].concat();
    fs::write(format!("{folder}/sample/image.bin"), &image)?;
    fs::write(format!("{folder}/sample/image.hex"), text.join("\n") + "\n")?;
    fs::write(format!("{folder}/sample/key.bin"), key)?;
    fs::write(format!("{folder}/sample/signature.bin"), signature)
}
