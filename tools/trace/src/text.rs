//! Text that is taken for a trace.

/// Whether bytes are text: there are some, none of them is zero, and they are UTF-8. Every sound trace has a zero byte in each word.
pub fn is_text(bytes: &[u8]) -> bool {
    !bytes.is_empty() && !bytes.contains(&0) && std::str::from_utf8(bytes).is_ok()
}
