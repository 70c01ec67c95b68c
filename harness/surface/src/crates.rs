//! The repository's library crates.

use std::collections::BTreeSet;
use std::fs;
use std::path::Path;

use crate::source::{declared, Function};

/// A crate that others can call, and its public functions.
#[derive(Clone, Debug, PartialEq, Eq)]
pub struct Library {
    /// The crate's name.
    pub name: String,
    /// Its functions, its modules' too.
    pub functions: Vec<Function>,
}

/// The crates in a folder that have `src/lib.rt`, by name; the others are programs.
pub fn libraries(folder: &Path) -> Result<Vec<Library>, String> {
    let mut libraries = Vec::new();
    for name in names(folder)? {
        let src = folder.join(&name).join("src");
        if src.join("main.rt").is_file() {
            continue;
        }
        let functions = functions(&src).map_err(|error| format!("crate {name}: {error}"))?;
        libraries.push(Library { name, functions });
    }
    Ok(asking_as_traits(libraries))
}

/// The crates, whose types' methods by a trait of theirs ask where the trait's own method does.
pub fn asking_as_traits(mut libraries: Vec<Library>) -> Vec<Library> {
    let functions = libraries.iter().flat_map(|library| &library.functions);
    let asking = functions
        .filter(|f| f.asks)
        .filter_map(|f| by_trait(&f.name));
    let asking: BTreeSet<_> = asking.collect();
    for function in libraries
        .iter_mut()
        .flat_map(|library| &mut library.functions)
    {
        function.asks |= by_trait(&function.name).is_some_and(|method| asking.contains(&method));
    }
    libraries
}

/// Of `<Trait>::method`, and of `<Type as Trait<..>>::method`, the trait and the method.
fn by_trait(name: &str) -> Option<(String, String)> {
    let (head, method) = name.rsplit_once(">::")?;
    let (_, within) = head.split_once('<')?;
    let path = within.rsplit_once(" as ").map_or(within, |(_, path)| path);
    let name = path.split_once('<').map_or(path, |(name, _)| name);
    Some((name.to_owned(), method.to_owned()))
}

/// The functions of a crate whose files lie in a folder: of lib.rt, then of its modules.
fn functions(src: &Path) -> Result<Vec<Function>, String> {
    let mut functions = Vec::new();
    let mut files = vec!["lib.rt".to_owned()];
    let mut read = 0;
    while let Some(file) = files.get(read).cloned() {
        let text =
            fs::read_to_string(src.join(&file)).map_err(|error| format!("{file}: {error}"))?;
        let found = declared(&text).map_err(|error| format!("{file}: {error}"))?;
        let module = match file.trim_end_matches(".rt") {
            "lib" => String::new(),
            module => format!("{module}::"),
        };
        if !(module.is_empty() || found.modules.is_empty()) {
            return Err(format!("{file}: a module of a module"));
        }
        functions.extend(found.functions.into_iter().map(|f| Function {
            name: format!("{module}{}", f.name),
            ..f
        }));
        files.extend(found.modules.iter().map(|name| format!("{name}.rt")));
        read += 1;
    }
    match names(src)?.iter().find(|file| !files.contains(file)) {
        Some(file) => Err(format!("no module of the crate is src/{file}")),
        None => Ok(functions),
    }
}

/// The names in a folder, sorted.
fn names(folder: &Path) -> Result<Vec<String>, String> {
    let entries = fs::read_dir(folder).map_err(|error| format!("{}: {error}", folder.display()))?;
    let mut names = Vec::new();
    for entry in entries {
        let entry = entry.map_err(|error| error.to_string())?;
        names.push(entry.file_name().to_string_lossy().into_owned());
    }
    names.sort();
    Ok(names)
}
