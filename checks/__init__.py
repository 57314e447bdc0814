"""The checks of what is built: `scripts/check --list` names them, `scripts/check NAME..` runs them."""
