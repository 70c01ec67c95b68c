//! What a file of Rattle declares for other crates.

use crate::tokens::tokens;

/// A `pub fn`.
#[derive(Clone, Debug, PartialEq, Eq)]
pub struct Function {
    /// Its name in the crate: behind its module's, and a method's behind its type's or its trait's; an
    /// operation that a type has by a trait of std is `<Type as Trait>::name`.
    pub name: String,
    /// Whether it has a `requires`.
    pub asks: bool,
}

/// The public functions of a file, and the modules that it names.
#[derive(Clone, Debug, Default, PartialEq, Eq)]
pub struct Declared {
    /// The functions, in the order of the file.
    pub functions: Vec<Function>,
    /// The modules' names.
    pub modules: Vec<String>,
}

/// Reads a file; an item of a sort that is not known here is an error, so that none is passed over.
pub fn declared(text: &str) -> Result<Declared, String> {
    let mut reader = Reader {
        tokens: tokens(text),
        at: 0,
        declared: Declared::default(),
    };
    while reader.at < reader.tokens.len() {
        reader.item("")?;
    }
    Ok(reader.declared)
}

/// How the prefix of a function ends that a type has by a trait, or that a trait declares.
const OPERATION: &str = ">::";

struct Reader<'a> {
    tokens: Vec<&'a str>,
    at: usize,
    declared: Declared,
}

impl<'a> Reader<'a> {
    /// Reads an item, whose names stand behind a prefix.
    fn item(&mut self, prefix: &str) -> Result<(), String> {
        let mut is_public = false;
        loop {
            match self.next()? {
                // The file's own attribute is followed by no item.
                "#" if self.peek() == Some("!") => {
                    self.at += 1;
                    return self.group();
                }
                "#" => self.group()?,
                // `pub(super)` is for the crate alone.
                "pub" if self.peek() == Some("(") => self.group()?,
                "pub" => is_public = true,
                "extern" if self.peek() == Some("\"C\"") => self.at += 1,
                // A ghost import, or a member of a trait or of what stands for it at a type.
                "ghost" => return self.up_to(";"),
                "const" if self.peek() == Some("fn") => {}
                "use" | "const" | "type" => return self.up_to(";"),
                "struct" | "enum" => return self.up_to("{"),
                "mod" => return self.module(),
                "impl" => return self.methods(),
                "trait" => return self.declared_methods(is_public),
                "fn" => return self.function(prefix, is_public || prefix.ends_with(OPERATION)),
                other => {
                    let before = &self.tokens[self.at.saturating_sub(8)..self.at];
                    return Err(format!("{other:?} begins no known item: {before:?}"));
                }
            }
        }
    }

    fn module(&mut self) -> Result<(), String> {
        let name = self.next()?.to_owned();
        self.declared.modules.push(name);
        match self.next()? {
            ";" => Ok(()),
            _ => Err("a module within a file".into()),
        }
    }

    /// The items of an impl block: `impl<'a> Type<'a> { .. }` or `impl<'a> Trait for Type<'a> { .. }`.
    fn methods(&mut self) -> Result<(), String> {
        let first = self.type_name()?;
        let behind = self.at;
        let prefix = match self.head()? {
            true => {
                let parameters = self.tokens[behind..self.at - 1].concat();
                let name = self.type_name()?;
                self.head()?;
                format!("<{name} as {first}{parameters}{OPERATION}")
            }
            false => format!("{first}::"),
        };
        self.items(&prefix)
    }

    /// The functions that a trait declares.
    fn declared_methods(&mut self, is_public: bool) -> Result<(), String> {
        let name = self.next()?;
        self.head()?;
        match is_public {
            true => self.items(&format!("<{name}{OPERATION}")),
            false => {
                self.at -= 1;
                self.group()
            }
        }
    }

    /// A type's name, or a trait's: the last word of its path.
    fn type_name(&mut self) -> Result<&'a str, String> {
        let mut depth = 0;
        loop {
            match self.next()? {
                "<" => depth += 1,
                ">" => depth -= 1,
                name if depth == 0 && name != ":" && self.peek() != Some(":") => return Ok(name),
                _ => {}
            }
        }
    }

    /// Passes over the rest of a block's head; whether a `for` ends it and not the block's `{`.
    fn head(&mut self) -> Result<bool, String> {
        let mut depth = 0;
        loop {
            match self.next()? {
                "<" => depth += 1,
                ">" => depth -= 1,
                "for" if depth == 0 => return Ok(true),
                "{" if depth == 0 => return Ok(false),
                _ => {}
            }
        }
    }

    /// The items of a block up to its end.
    fn items(&mut self, prefix: &str) -> Result<(), String> {
        while self.peek() != Some("}") {
            self.item(prefix)?;
        }
        self.at += 1;
        Ok(())
    }

    /// A function from its name on: the clauses of its contract stand before its body.
    fn function(&mut self, prefix: &str, is_public: bool) -> Result<(), String> {
        let name = format!("{prefix}{}", self.next()?);
        let mut asks = false;
        loop {
            match self.peek() {
                Some("(" | "[") => self.group()?,
                Some("{") => break self.group()?,
                Some(";") => break self.at += 1,
                Some(clause @ ("requires" | "ensures")) => {
                    asks |= clause == "requires";
                    self.up_to("{")?;
                }
                _ => _ = self.next()?,
            }
        }
        if is_public {
            self.declared.functions.push(Function { name, asks });
        }
        Ok(())
    }

    fn next(&mut self) -> Result<&'a str, String> {
        let token = self.peek().ok_or("the file ends within an item")?;
        self.at += 1;
        Ok(token)
    }

    fn peek(&self) -> Option<&'a str> {
        self.tokens.get(self.at).copied()
    }

    /// Passes over everything up to a `;`, or else the end of a `{ .. }`, if that is the end sought.
    fn up_to(&mut self, end: &str) -> Result<(), String> {
        loop {
            match self.peek() {
                Some("(" | "[") => self.group()?,
                Some("{") => {
                    self.group()?;
                    if end == "{" {
                        return Ok(());
                    }
                }
                Some(";") => {
                    self.at += 1;
                    return Ok(());
                }
                _ => _ = self.next()?,
            }
        }
    }

    /// Passes over a bracket and all within it.
    fn group(&mut self) -> Result<(), String> {
        let mut depth = 0;
        loop {
            match self.next()? {
                "(" | "[" | "{" => depth += 1,
                ")" | "]" | "}" => depth -= 1,
                _ => {}
            }
            if depth == 0 {
                return Ok(());
            }
        }
    }
}
