"""The version of this package and of the library's interface, as the file VERSION at the top has it."""

VERSION = "0.2.0"
