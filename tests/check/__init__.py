"""Tests of gtp_check."""
