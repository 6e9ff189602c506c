"""The parts of `library/declare`, which writes all that declares the library."""
