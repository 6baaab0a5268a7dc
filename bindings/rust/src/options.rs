//! What a caller may choose.

/// How much is optimised.
#[derive(Clone, Copy, Debug, Default, PartialEq, Eq)]
pub enum Level {
    /// Nothing.
    None,
    /// All that is proved.
    #[default]
    Simple,
    /// As `Simple`.
    Full,
}

/// How scripts are written.
#[derive(Clone, Copy, Debug, Default, PartialEq, Eq)]
pub enum Syntax {
    /// In rhai's own syntax.
    #[default]
    Rhai,
    /// As trees in print.
    Notation,
}

/// How scripts are read and optimised.
#[derive(Clone, Debug, PartialEq, Eq)]
pub struct Options {
    /// How much is optimised.
    pub level: Level,
    /// How scripts are written.
    pub syntax: Syntax,
    /// Constants that hold beforehand, as declarations: `const DEBUG = false;`.
    pub constants: String,
    /// How deep a text may nest; 0 for as deep as is ever read, which is 1000 levels.
    pub max_expr_depth: u64,
    /// The same within functions.
    pub max_function_expr_depth: u64,
    /// How many bytes a literal text may have; 0 for any number.
    pub max_string_size: u64,
}

/// Nothing known beforehand, and rhai's own bounds.
impl Default for Options {
    fn default() -> Options {
        Options {
            level: Level::default(),
            syntax: Syntax::default(),
            constants: String::new(),
            max_expr_depth: 64,
            max_function_expr_depth: 32,
            max_string_size: 0,
        }
    }
}
