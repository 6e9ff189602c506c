"""Tests of the scripts for tournaments."""
