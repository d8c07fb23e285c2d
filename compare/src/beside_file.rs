// Beside the private function `text` of file.rs, a public way to it. (Plain comments: this text is included at the end
// of a copy.)

pub fn text_of(tab: &[u8], off: u32, len: u32) -> Result<&str, String> {
    text(tab, off, len)
}
