/// Room for the text of a number.
pub struct Buffer(std::string::String);

impl Buffer {
    pub fn new() -> Self {
        Buffer(std::string::String::new())
    }
    pub fn format<N: std::fmt::Display>(&mut self, n: N) -> &str {
        self.0 = n.to_string();
        &self.0
    }
}
