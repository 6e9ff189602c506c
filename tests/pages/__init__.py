"""Tests of the pages, of the declarations of the library, and of the scripts."""
