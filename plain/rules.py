"""The changes that the export makes, by name. Each has a test of its name in `tests/test_rules.py`.
"""

RULES = {
    # what only the prover reads
    'ghost-use': 'an import of definitions: `ghost use ..;` goes',
    'ghost-member': 'a ghost member of a trait, an impl or a struct: `ghost name: {..} = {..} by {..}` goes',
    'contract': 'clauses of a function: `requires name {..}` and `ensures name {..}` go',
    'model': '`impl Model for T {..}`, which says what a contract sees of a type, and its import go',
    'tactic': '`#[tactic(..)]` and `#![tactic(..)]` go',
    'cycle': '`#[cycle(name)]`, which names functions that call each other, goes',
    # dropping
    'derive-drop': '`Drop` in a derive goes: in Rust each value may be dropped',
    'drop-bound': '`Drop` among the bounds of a type goes',
    # derives
    'derive-copy': 'a derived `Copy` also has the clone of `rattle_std`, which returns a Result',
    'derive-error': 'a derived `Error` becomes impls of Display and Error, or stays with the real thiserror',
    # paths
    'std-path': 'a path in `std` becomes one in `rattle_std`',
    'kit-path': 'a path in a library of the toolkit becomes one in the module of its name in `rattle_std`',
    'str-path': '`str::from_utf8` becomes `core::str::from_utf8`, which older Rust has too',
    'prelude': 'each file takes the names that are in scope in Rattle from `rattle_std::prelude`',
    'forbid-unsafe': 'each crate begins with `#![forbid(unsafe_code)]`',
    # calls that are passed an allocator
    'collect': '`.collect(alloc)` becomes `.collect_in(alloc)`',
    'to-vec': '`.to_vec(alloc)` becomes `.vec_in(alloc)`',
    'box-new': '`Box::new(alloc, value)` becomes `rattle_std::boxed::new(alloc, value)`',
    'none-or': '`.is_none_or(f)` becomes `.map_or(true, f)`, which older Rust has too',
    # macros
    'print': '`println!(rt; ..)` becomes that of `rattle_std`, which returns a Result',
    'format': '`format!(in alloc; ..)` becomes `rattle_std::format_in!(alloc; ..)`',
    'vec': '`vec![in alloc; ..]` becomes `rattle_std::vec_in![alloc; ..]`',
    'assert': '`assert!(rt; ..)` and `assert_eq!(rt; ..)` in a test become those of Rust',
    # functions
    'fmt': '`fn fmt<W: fmt::Write>(&self, f: &mut fmt::Formatter<W>)` has the formatter of Rust',
    'main': '`fn main(rt: HostRuntime)` makes the runtime itself',
    'test': 'a `#[test]` that takes the runtime makes it itself',
}
