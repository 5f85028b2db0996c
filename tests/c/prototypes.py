"""Holds the header's prototypes, the Rust binding's declarations and the library's exported functions to each other: tests/c/prototypes.py HEADER BINDING SOURCE

Each is read as a list of parameters for every function; in the library's own source a slice is an address and a length. Header and binding must have the same names
and types in the same order, and the library the same types."""
import re
import sys

# A number's type by its name in each language.
TYPES = {"uint8_t": "u8", "uint32_t": "u32", "uint64_t": "u64", "size_t": "usize"}


def in_c(text):
    """The functions of the header: name, parameters, result."""
    found = {}
    for result, name, rest in re.findall(r"^(\w+) (tungwaff_\w+)\(([^;{]*)\);", text, re.M):
        found[name] = [c_parameter(part) for part in rest.split(",")], TYPES[result]
    return found


def c_parameter(text):
    const, kind, star, name, array = re.fullmatch(r"\s*(const )?(\w+) (\*?)(\w+)(\[\w*\])?\s*", text).groups()
    pointer = ("*const " if const else "*mut ") if star or array else ""
    return name, pointer + TYPES[kind]


def in_rust(text):
    """The functions of the binding's extern block."""
    block = text[text.index('extern "C" {') :]
    found = {}
    for name, rest, result in re.findall(r"pub fn (tungwaff_\w+)\(([^)]*)\)(?: -> (\w+))?;", block):
        # an array of a known length is passed by its address
        plain = re.sub(r"\[(\w+); \w+\]", r"\1", rest)
        parts = [part.strip() for part in plain.split(",") if part.strip()]
        found[name] = [tuple(part.split(": ")) for part in parts], result
    return found


def in_source(text):
    """The exported functions of the library."""
    found = {}
    for name, rest, result in re.findall(r'pub extern "C" fn (tungwaff_\w+)\(([^)]*)\) -> (\w+)', text):
        parts = [part.strip() for part in rest.split(",") if part.strip()]
        found[name] = [one for part in parts for one in source_parameter(part)], result
    return found


def source_parameter(text):
    """One parameter, or the two of a slice."""
    name, kind = text.split(": ")
    borrowed = re.fullmatch(r"&(mut )?\[?(\w+)(; \d+)?\]?", kind)
    if not borrowed:
        return [(name, kind)]
    address = (name, ("*mut " if borrowed[1] else "*const ") + borrowed[2])
    whole = "[" not in kind or borrowed[3]
    return [address] if whole else [address, (f"{name}_len", "usize")]


def types(functions):
    """The functions without the names of their parameters."""
    return {name: ([kind for _, kind in parameters], result) for name, (parameters, result) in functions.items()}


def compare(where, ours, other, theirs):
    """Ends the program where a function is not the same on both sides."""
    for name in sorted(set(ours) | set(theirs)):
        if ours.get(name) != theirs.get(name):
            sys.exit(f"prototypes: {name} is {ours.get(name)} in {where}, and {theirs.get(name)} in {other}")


def main():
    header, binding, source = (open(path).read() for path in sys.argv[1:4])
    c, rust, library = in_c(header), in_rust(binding), in_source(source)
    if not library:
        sys.exit("prototypes: the library's source has no exported function")
    compare("the header", types(c), "the library", types(library))
    compare("the binding", rust, "the header", c)
    print(f"prototypes: {len(library)} functions are declared as they are exported")


main()
