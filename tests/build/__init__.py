"""Tests of the scripts that build, test and release."""
