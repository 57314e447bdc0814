"""Takes the contracts out of Rattle sources: what is left is Rust. scripts/erase is the command."""
