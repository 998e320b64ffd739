"""The editor as plain Rust: reads the Rattle of `crates/` and writes an ordinary cargo workspace
(`./editor --rust FOLDER`).

Rattle is Rust with contracts. The export removes contracts, ghost items and attributes of the
prover, and changes the few forms that Rust writes differently. What it makes answers as the proved
program does, and nothing of it is proved.

Where to look: `tokens` cuts a file into tokens; `reader` parses the items and forms that it knows
and marks what changes; `rules` names each change; `known` lists the library paths, methods and
macros that have the same meaning in both; `derives` writes what a derive stands for; `workspace`
writes the folder; `library` is the part of the toolkit's library that the crates use, written over
Rust's own. A form, path, method, macro or attribute that isn't known is refused by file and line: a
guess could change what the program does without a word. To add one, add its entry in `known` or its
rule in `rules` with a test.
"""
