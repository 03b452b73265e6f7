//! The files import in one direction, and the model's files know nothing of the wrong versions.

use std::fs;
use std::path::{Path, PathBuf};

/// The text of a source file.
fn text(path: &Path) -> String {
    fs::read_to_string(path).unwrap_or_else(|error| panic!("{}: {error}", path.display()))
}

/// The modules that a file declares, in its order.
fn declared(path: &Path) -> Vec<String> {
    let text = text(path);
    let names = text.lines().map(|line| line.trim_start_matches("pub "));
    names.filter_map(|line| Some(line.strip_prefix("mod ")?.strip_suffix(';')?.to_string())).collect()
}

/// The first names behind a prefix, wherever it stands: one, or those in braces.
fn named(text: &str, prefix: &str) -> Vec<String> {
    let word = |rest: &str| rest.chars().take_while(|c| c.is_alphanumeric() || *c == '_').collect::<String>();
    let behind = text.split(prefix).skip(1).flat_map(|rest| match rest.strip_prefix('{') {
        Some(list) => list.split('}').next().unwrap_or_default().split(',').map(|name| word(name.trim())).collect(),
        None => vec![word(rest)],
    });
    behind.filter(|name| !name.is_empty()).collect()
}

/// Every module under a folder with its files, and the order of the modules.
fn modules(folder: &Path, list: &str) -> (Vec<String>, Vec<(String, Vec<PathBuf>)>) {
    let order = declared(&folder.join(list));
    let files = |name: &String| {
        let alone = folder.join(format!("{name}.rs"));
        if alone.exists() {
            return (name.clone(), vec![alone]);
        }
        let within = folder.join(name);
        let children = declared(&within.join("mod.rs")).into_iter().map(|child| within.join(format!("{child}.rs")));
        (name.clone(), children.chain([within.join("mod.rs")]).collect())
    };
    let all = order.iter().map(files).collect();
    (order, all)
}

/// Whether what is imported stands above in the list.
fn check(order: &[String], module: &str, path: &Path, imported: &[String]) {
    let place = |name: &str| order.iter().position(|other| other == name);
    for name in imported {
        let above = place(name).is_some_and(|there| Some(there) < place(module));
        assert!(above, "{} imports {name}", path.display());
    }
}

#[test]
fn imports_point_upward_in_the_list() {
    let source = Path::new(env!("CARGO_MANIFEST_DIR")).join("src");
    let (order, modules_here) = modules(&source, "lib.rs");
    assert!(order.len() > 30);
    for (module, files) in &modules_here {
        for path in files {
            let imported = named(&text(path), "crate::");
            check(&order, module, path, &imported.into_iter().filter(|name| name != module).collect::<Vec<_>>());
        }
    }
}

#[test]
fn imports_within_a_folder_point_upward_in_its_list() {
    let source = Path::new(env!("CARGO_MANIFEST_DIR")).join("src");
    for folder in ["probe", "fault", "streams", "limit"] {
        let (order, children) = modules(&source.join(folder), "mod.rs");
        assert!(order.len() > 2);
        for (child, files) in &children {
            let text = text(&files[0]);
            let imported = [named(&text, "super::"), named(&text, &format!("crate::{folder}::"))].concat();
            check(&order, child, &files[0], &imported);
        }
    }
}

#[test]
fn the_model_knows_nothing_of_faults() {
    let source = Path::new(env!("CARGO_MANIFEST_DIR")).join("src");
    let (_, all) = modules(&source, "lib.rs");
    let model: Vec<&PathBuf> =
        all.iter().take_while(|module| module.0 != "fault").flat_map(|module| &module.1).collect();
    assert!(model.len() >= 16);
    for path in model {
        let text = text(path).to_lowercase();
        let words = text.split(|c: char| !c.is_alphabetic());
        assert!(!words.into_iter().any(|word| matches!(word, "fault" | "faults" | "wrong")), "{}", path.display());
    }
}
