"""Removes the ghosts from Rattle sources, which leaves Rust, and writes a Cargo workspace."""
