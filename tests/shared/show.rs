//! Texts of any bytes, to be read by a person.

/// How much of a long text is shown.
const SHOWN_BYTES: usize = 4_000;

pub fn shown(name: &str, text: &[u8]) -> String {
    let bytes = text[..text.len().min(SHOWN_BYTES)].escape_ascii().to_string().replace("\\n", "\\n\n");
    format!("--- {name}, {} bytes\n{bytes}", text.len())
}
