//! Cutting items out of Rust source text.

/// A module, function or enum: from its opening words to the brace that closes it.
pub fn item(text: &str, opening: &str) -> String {
    only_once(text, opening);
    let rest = &text[text.find(opening).expect("found once")..];
    let mut depth = 0;
    for (at, letter) in rest.char_indices() {
        match letter {
            '{' => depth += 1,
            '}' if depth == 1 => return rest[..=at].to_string(),
            '}' => depth -= 1,
            _ => {}
        }
    }
    panic!("`{opening}` is never closed");
}

/// A public constant, to the semicolon that ends its line.
pub fn constant(text: &str, name: &str) -> String {
    let opening = format!("pub const {name}:");
    only_once(text, &opening);
    let rest = &text[text.find(&opening).expect("found once")..];
    let end = rest.find(";\n").unwrap_or_else(|| panic!("`{opening}` is never ended"));
    rest[..=end].to_string()
}

/// Stops the build unless the text holds the words exactly once.
pub fn only_once(text: &str, words: &str) {
    let count = text.matches(words).count();
    assert!(count == 1, "`{words}` stands {count} times");
}
