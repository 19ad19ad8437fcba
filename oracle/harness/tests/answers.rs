//! The stored answers that `crates/answers` replays: the model gives each of them, and none of the spoiled file.

use harness::corpus::replay;
use harness::model::Model;

fn stored(name: &str) -> Vec<u32> {
    let path = format!("{}/../../crates/answers/data/{name}", env!("CARGO_MANIFEST_DIR"));
    let bytes = std::fs::read(path).expect("the answers are stored");
    bytes.chunks_exact(4).map(|word| u32::from_le_bytes(word.try_into().expect("four bytes"))).collect()
}

#[test]
fn the_model_gives_them() {
    assert!(replay(&stored("rust.bin"), &mut Model).expect("as stored") > 300);
}

#[test]
fn a_spoiled_one_is_found() {
    assert!(replay(&stored("spoiled.bin"), &mut Model).is_err_and(|message| message.starts_with("call 1 ")));
}
