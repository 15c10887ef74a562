"""What the compiler and the tests of the crates have to refuse, on copies of the sources."""
