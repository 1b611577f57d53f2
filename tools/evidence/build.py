"""Builds programs that have the Rust demangler in them, says where the proved programs are, and finds symbols of the machine's libraries."""
import os
import re
import shutil
import subprocess
import sys

HERE = os.path.dirname(os.path.abspath(__file__))
ROOT = os.path.dirname(os.path.dirname(HERE))
RUST = os.path.join(ROOT, "..", "shared", "docs", "src")
RUST_FILE = "src--crates--e5r-types--src--itanium.rs.txt"

# ---------------------------------------------------------------- what tools/build leaves

LIBRARY = os.path.join(ROOT, "crates", "patchname", "out", "libpatchname.a")


def path_of(name):
    return os.path.join(ROOT, "crates", name, "out", name)


def prove_and_build(*names):
    subprocess.run([os.path.join(ROOT, "tools", "build"), *names], check=True, stdout=subprocess.DEVNULL)


# ---------------------------------------------------------------- the numbered copy

DEMANGLE = """/// The text with its bytes 1, and whether bytes are left that don't begin with a dot.
pub fn reading(s: &str) -> Result<(String, bool), u8> {
    let body = s.strip_prefix("_Z").or_else(|| s.strip_prefix("__Z")).ok_or(3u8)?;
    let mut p = Parser::new(body);
    let out = p.mangled_name()?;
    Ok((out, !p.rest().is_empty() && !p.rest().starts_with('.')))
}

fn returned(out: String) -> R<String> {
    if out.len() > 16384 { Err(11) } else { Ok(out) }
}

fn pushed(list: &mut Vec<String>, text: String, refusal: u8) -> R<()> {
    let bytes: usize = list.iter().map(|t| t.len()).sum();
    if list.len() == 1024 || bytes + text.len() > 32768 {
        return Err(refusal);
    }
    list.push(text);
    Ok(())
}

/// The text with another at each slot, which becomes an entry: past 32,768 bytes it can't.
fn at_slots(text: &str, put: &str) -> R<String> {
    let slots = text.matches(SLOT).count();
    if text.len() - slots + slots * put.len() > 32768 {
        return Err(9);
    }
    Ok(text.replace(SLOT, put))
}
"""

# What stands in the Rust, what stands there in the copy, how often.
NUMBERED = [
    ("type R<T> = Result<T, ()>;", "type R<T> = Result<T, u8>;", 1),
    ("if self.depth > 96 { Err(()) } else { Ok(()) }", "if self.depth > 96 { Err(8) } else { Ok(()) }", 1),
    ("usize::from_str_radix(&digits, 36).map_err(|_| ())? + 1",
     "usize::from_str_radix(&digits, 36).map_err(|_| 7u8)?.checked_add(1).ok_or(7u8)?", 1),
    ("self.subs.get(index).cloned().ok_or(())", "self.subs.get(index).cloned().ok_or(7)", 1),
    ("digits.parse::<usize>().map_err(|_| ())? + 1",
     "digits.parse::<usize>().map_err(|_| 4u8)?.checked_add(1).ok_or(4u8)?", 1),
    ("inner.replace(SLOT, &format!(\"{decl}{SLOT}\"))", "at_slots(&inner, &format!(\"{decl}{SLOT}\"))?", 1),
    ("member.replace(SLOT, &format!(\"{class}::*{SLOT}\"))", "at_slots(&member, &format!(\"{class}::*{SLOT}\"))?", 1),
    ("Err(())", "Err(4)", None),
    ("ok_or(())", "ok_or(4)", None),
    ("map_err(|_| ())", "map_err(|_| 4u8)", 1),
]  # fmt: skip


def numbered(rust):
    """The Rust with document 01's numbers: texts measured where they are returned, lists where they are pushed to."""
    start = rust.index("pub fn demangle(")
    end = rust.index("struct Parser<'a>")
    text = rust[:start] + DEMANGLE + "\n" + rust[end:]
    for old, new, times in NUMBERED:
        if text.count(old) != times if times else old not in text:
            sys.exit(f"the Rust has another number of times: {old}")
        text = text.replace(old, new)
    text, entries = re.subn(r"self\.subs\.push\((.*)\);", r"pushed(&mut self.subs, \1, 9)?;", text)
    text, arguments = re.subn(r"self\.args\.push\((.*)\);", r"pushed(&mut self.args, \1, 10)?;", text)
    text, texts = re.subn(
        r"    fn (\w+)\(&mut self\) -> R<String> \{\n",
        r"    fn \1(&mut self) -> R<String> {\n        self.\1_read().and_then(returned)\n    }\n\n"
        r"    fn \1_read(&mut self) -> R<String> {\n",
        text,
    )
    text, maybe = re.subn(
        r"    fn (\w+)\(&mut self\) -> R<Option<String>> \{\n",
        r"    fn \1(&mut self) -> R<Option<String>> {\n        self.\1_read()?.map(returned).transpose()\n    }\n\n"
        r"    fn \1_read(&mut self) -> R<Option<String>> {\n",
        text,
    )
    if (entries, arguments, texts, maybe) != (15, 1, 19, 1):
        sys.exit(f"the Rust has other places: {(entries, arguments, texts, maybe)}")
    return text


# ---------------------------------------------------------------- building


def build(program, folder, scratch):
    """Builds PROGRAM.rs of this folder with the Rust of `folder`, unchanged, and the numbered copy."""
    source = os.path.join(folder, RUST_FILE)
    if not os.path.exists(source):
        sys.exit(f"{source}: not found")
    os.makedirs(scratch, exist_ok=True)
    shutil.copyfile(source, os.path.join(scratch, "itanium.rs"))
    os.chmod(os.path.join(scratch, "itanium.rs"), 0o644)
    with open(source) as f:
        rust = f.read()
    with open(os.path.join(scratch, "numbered.rs"), "w") as f:
        f.write(numbered(rust))
    for name in ("symbols.rs", "catalogue.rs", "thunks.rs", program + ".rs"):
        shutil.copyfile(os.path.join(HERE, name), os.path.join(scratch, name))
    binary = os.path.join(scratch, program)
    # with overflow checks the Rust panics at the numbers that document 01 puts outside the comparison
    flags = ["--edition", "2024", "-O", "-C", "overflow-checks=on", "-A", "warnings"]
    subprocess.run(["rustc", *flags, "-o", binary, os.path.join(scratch, program + ".rs")], check=True)
    return binary


# ---------------------------------------------------------------- real symbols

LIBRARIES = ["/usr/lib", "/usr/local", "/opt"]
# Python's own libraries and the like have no C++ symbols; archives have many more than shared libraries.
ENDS = re.compile(r"\.(so(\.[0-9.]+)?|a)$")


def libraries(folders):
    seen = set()
    for top in folders:
        for folder, _, names in sorted(os.walk(top)):
            for name in sorted(names):
                path = os.path.join(folder, name)
                if not ENDS.search(name) or not os.path.isfile(path) or os.path.islink(path):
                    continue
                status = os.stat(path)
                if (status.st_dev, status.st_ino) not in seen:
                    seen.add((status.st_dev, status.st_ino))
                    yield path


def real_symbols(folders=LIBRARIES):
    """The C++ symbols that `nm` finds in libraries, without versions, each once."""
    found = set()
    for path in libraries(folders):
        words = ["nm", "-P", path] if path.endswith(".a") else ["nm", "-D", "-P", path]
        printed = subprocess.run(words, stdout=subprocess.PIPE, stderr=subprocess.DEVNULL).stdout
        for line in printed.split(b"\n"):
            name = line.split(b" ")[0].split(b"@")[0]
            if name.startswith((b"_Z", b"__Z")):
                found.add(name)
    return sorted(found)
