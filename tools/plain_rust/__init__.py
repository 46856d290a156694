"""Makes a Cargo package of plain Rust from the Rattle sources, by erasing contracts and ghosts.

`tools/plain_rust.py` is the way in. A source is cut into tokens (tokens.py, antt.py); what Rust
would run differently is refused (refused.py); ghosts and clauses go (ghosts.py, docs.py); what is
left is said in Rust's words (paths.py, macros.py, items.py), gets its functions of C (exports.py)
and is laid out (spacing.py). package.py does that for each crate, each a module of one package, and
adds what was written by hand: `parts/package/` goes there as it is, the rest of `parts/` is put
together with what is made.
"""
