"""The groups of cases: each module's `make` writes its own, by hand or from a seed."""
