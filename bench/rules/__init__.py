"""The rules of the tournament floor as a plain model, written apart from the code of the crates."""
