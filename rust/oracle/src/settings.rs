/// How to print. With `breaks` off, prefix and level have no effect.
#[derive(Clone, Debug, Eq, PartialEq)]
pub struct Settings {
    pub breaks: bool,
    pub prefix: String,
    pub level: usize,
}

impl Default for Settings {
    fn default() -> Self {
        Self::on("  ", 0)
    }
}

impl Settings {
    pub fn on(prefix: &str, level: usize) -> Self {
        Self {
            breaks: true,
            prefix: prefix.into(),
            level,
        }
    }

    pub fn off() -> Self {
        Self {
            breaks: false,
            ..Self::default()
        }
    }

    /// What the crate calls the indent prefix: none where breaks are off.
    pub fn indent_prefix(&self) -> Option<&str> {
        self.breaks.then_some(self.prefix.as_str())
    }
}
