//! Links crates/sogbayile/out/libsogbayile.a, which `rt lib` writes in crates/sogbayile; SOGBAYILE_LIB names another folder. Makes the commands
//! from the proved table, crates/rules/specs/Command.antt, and their documentation from the comments of include/sogbayile.h.
use std::fmt::Write;
use std::path::{Path, PathBuf};

/// What a call may be given, in this order: the name, the type in Rust, and for a row its pointer in C.
const PARAMS: [(&str, &str, Option<&str>); 5] = [
    ("list", "&[u32]", Some("*const u32")),
    ("row", "&[u32]", Some("*const u32")),
    ("offset", "i32", None),
    ("work", "&mut [u32]", Some("*mut u32")),
    ("out", "&mut [u32]", Some("*mut u32")),
];

/// A command of the proved table: its name, the bytes of its head, what stands before its form, the form's kind, and what its call is given.
struct Command<'a> {
    name: &'a str,
    head: String,
    args: &'a str,
    kind: &'a str,
    params: Vec<(&'static str, &'static str, Option<&'static str>)>,
}

/// What stands behind these words on the one line that begins with them.
fn after<'a>(table: &'a str, start: &str) -> &'a str {
    table.lines().find_map(|line| line.strip_prefix(start)).unwrap_or_else(|| panic!("no line begins with '{start}'"))
}

fn command<'a>(table: &'a str, name: &'a str) -> Command<'a> {
    let entry = after(table, &format!("entry_of {name} = ("));
    let parts: Vec<&str> = entry.trim_end_matches(')').split(", ").collect();
    let [head, args, kind] = parts[..] else { panic!("an entry has three parts, that of {name} has not") };
    let bytes = head.split(" ∷ ").filter(|byte| *byte != "[]");
    let head: String = bytes.map(|byte| char::from(byte.parse::<u8>().expect("a head is a list of bytes"))).collect();
    let outcome = after(table, &format!("outcome_of {name} z list row work room = "));
    let given: Vec<&str> = outcome.split(' ').skip(1).collect();
    // the table has names of its own for the offset and for the room in the output
    let is_given = |param: &str| {
        given.contains(&match param {
            "offset" => "z",
            "out" => "room",
            same => same,
        })
    };
    let params = PARAMS.into_iter().filter(|(param, _, _)| is_given(param)).collect();
    Command { name, head, args, kind, params }
}

impl Command<'_> {
    /// The name of its function.
    fn own(&self) -> &str {
        self.head.trim_matches(['[', ' '])
    }

    /// The comment of its declaration in the header; its last numbers are those of its refusals.
    fn says(&self, header: &str) -> String {
        let declared =
            header.find(&format!("\nuint64_t sgb_{}(", self.own())).expect("the header declares each command");
        let start = header[..declared].rfind("/* ").expect("each declaration has a comment");
        let comment = header[start + 3..declared].trim_end_matches(" */");
        let lines: Vec<&str> = comment.lines().map(|line| line.trim_start_matches(" * ").trim()).collect();
        let text = lines.join(" ");
        let (says, refusals) = text.rsplit_once(". ").expect("a comment ends with the numbers of the refusals");
        format!("/// {says}.\n///\n/// Refused by {refusals}\n")
    }

    fn declaration(&self) -> String {
        let params: Vec<String> = self
            .params
            .iter()
            .map(|(param, plain, pointer)| match pointer {
                Some(pointer) => format!("{param}: {pointer}, {param}_len: usize"),
                None => format!("{param}: {plain}"),
            })
            .collect();
        format!("        pub fn sgb_{}({}) -> u64;\n", self.own(), params.join(", "))
    }

    fn function(&self, header: &str) -> String {
        let params: Vec<String> = self.params.iter().map(|(param, plain, _)| format!("{param}: {plain}")).collect();
        let passed: Vec<String> = self
            .params
            .iter()
            .map(|(param, plain, pointer)| match pointer {
                Some(_) if plain.starts_with("&mut") => format!("{param}.as_mut_ptr(), {param}.len()"),
                Some(_) => format!("{param}.as_ptr(), {param}.len()"),
                None => param.to_string(),
            })
            .collect();
        let (own, says) = (self.own(), self.says(header));
        format!(
            "{says}pub fn {own}({}) -> Result<usize, crate::Refusal> {{\n    crate::length(unsafe {{ c::sgb_{own}({}) }})\n}}\n\n",
            params.join(", "),
            passed.join(", ")
        )
    }
}

/// The commands in the order of their numbers, as an enum; their entries, as a constant; and their functions.
fn commands(table: &str, header: &str) -> String {
    let names = after(table, "commands = ").split(" ∷ ").filter(|name| *name != "[]");
    let commands: Vec<Command> = names.map(|name| command(table, name)).collect();
    let (mut variants, mut all, mut entries, mut arms) = (String::new(), String::new(), String::new(), String::new());
    let (mut declarations, mut functions) = (String::new(), String::new());
    for (i, command) in commands.iter().enumerate() {
        let Command { name, head, args, kind, params } = command;
        let passed: Vec<&str> = params.iter().map(|(param, _, _)| *param).collect();
        writeln!(variants, "    {name} = {},", i + 1).unwrap();
        write!(all, "Command::{name}, ").unwrap();
        writeln!(
            entries,
            "    Entry {{ head: {head:?}, command: Command::{name}, args: Args::{args}, kind: Kind::{kind} }},"
        )
        .unwrap();
        writeln!(arms, "            Command::{name} => {}({}),", command.own(), passed.join(", ")).unwrap();
        declarations += &command.declaration();
        functions += &command.function(header);
    }
    format!(
        "/// A command, with its number in the C header.\n#[derive(Clone, Copy, Debug, PartialEq, Eq)]\npub enum Command {{\n{variants}}}\n\n\
         impl Command {{\n    /// All of them, in the order of their numbers.\n    pub const ALL: [Command; {count}] = [{all}];\n\n    \
         /// Runs the command by its own function. One that takes no offset, no list or no `work` does not look at it.\n    \
         pub fn call(\n        self,\n        offset: i32,\n        list: &[u32],\n        row: &[u32],\n        work: &mut [u32],\n        out: &mut [u32],\n    ) \
         -> Result<usize, crate::Refusal> {{\n        match self {{\n{arms}        }}\n    }}\n}}\n\n\
         pub(crate) const COMMANDS: [Entry; {count}] = [\n{entries}];\n\n\
         mod c {{\n    extern \"C\" {{\n{declarations}    }}\n}}\n\n{functions}",
        count = commands.len()
    )
}

fn read(path: &Path) -> String {
    println!("cargo:rerun-if-changed={}", path.display());
    std::fs::read_to_string(path).unwrap_or_else(|_| panic!("{} is missing", path.display()))
}

fn main() {
    let here = PathBuf::from(std::env::var("CARGO_MANIFEST_DIR").unwrap());
    let table = read(&here.join("../crates/rules/specs/Command.antt"));
    let header = read(&here.join("../include/sogbayile.h"));
    let made = PathBuf::from(std::env::var("OUT_DIR").unwrap()).join("commands.rs");
    std::fs::write(made, commands(&table, &header)).unwrap();

    let folder = match std::env::var("SOGBAYILE_LIB") {
        Ok(folder) => PathBuf::from(folder),
        Err(_) => here.join("../crates/sogbayile/out"),
    };
    let archive = folder.join("libsogbayile.a");
    assert!(archive.exists(), "{} is missing: run rt lib in crates/sogbayile", archive.display());
    println!("cargo:rustc-link-search=native={}", folder.display());
    println!("cargo:rustc-link-lib=static=sogbayile");
    println!("cargo:rerun-if-changed={}", archive.display());
    println!("cargo:rerun-if-env-changed=SOGBAYILE_LIB");
}
