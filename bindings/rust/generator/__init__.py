"""Turns the proved Rattle sources into the modules of a plain Rust crate: see the program `generate` beside this folder."""
