"""The parts of tools/prepare: reading C, walking over the function, and printing it in the language."""
