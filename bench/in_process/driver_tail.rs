
/// The answers to a step file, or none where the file or its pool is refused as a whole.
pub fn answer_text(bytes: &[u8]) -> Option<String> {
    let file = read(bytes)?;
    let loaded = load(&file).ok()?;
    let mut text = String::new();
    steps(&file, loaded, &mut text);
    Some(text)
}
