//! Stand-in for `toml`: parses nothing. The harness installs each ABI instead.

#[derive(Debug)]
pub struct NoParser;

pub fn from_str<T>(_: &str) -> Result<T, NoParser> {
    Err(NoParser)
}
