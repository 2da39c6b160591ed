//! Texts as they are written down here, with | for a tab.

/// A text that is given with | for a tab.
pub fn tabbed(text: &str) -> Vec<u8> {
    text.replace('|', "\t").into_bytes()
}

/// The same back.
pub fn barred(text: &[u8]) -> String {
    String::from_utf8_lossy(text).replace('\t', "|")
}
