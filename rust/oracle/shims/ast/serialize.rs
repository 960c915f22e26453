// The crate's `ast/serialize.rs`, unchanged, and below it two ways in that it does not offer itself. Both start the
// crate's own functions in the state that its Display starts them in, but indent nothing before the first line.

include!("serialize_unchanged.rs");

/// A document, its first line not indented.
pub(crate) struct BareDocument<'a> {
    pub(crate) document: &'a Document,
    pub(crate) prefix: Option<&'a str>,
    pub(crate) level: usize,
}

impl Display for BareDocument<'_> {
    fn fmt(&self, f: &mut fmt::Formatter<'_>) -> fmt::Result {
        self.document
            .serialize_impl(&mut bare_state(self.prefix, self.level, f))
    }
}

/// One string literal, its first line not indented.
pub(crate) struct BareLiteral<'a> {
    pub(crate) value: &'a str,
    pub(crate) is_description: bool,
    pub(crate) prefix: Option<&'a str>,
    pub(crate) level: usize,
}

impl Display for BareLiteral<'_> {
    fn fmt(&self, f: &mut fmt::Formatter<'_>) -> fmt::Result {
        let state = &mut bare_state(self.prefix, self.level, f);
        serialize_string_value(state, self.is_description, self.value)
    }
}

fn bare_state<'config, 'fmt, 'fmt2>(
    indent_prefix: Option<&'config str>,
    level: usize,
    output: &'fmt mut fmt::Formatter<'fmt2>,
) -> State<'config, 'fmt, 'fmt2> {
    State {
        config: Config {
            indent_prefix,
            initial_indent_level: level,
        },
        indent_level: level,
        output,
        output_empty: true,
    }
}
