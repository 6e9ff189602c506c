"""Tests of gtp_engine."""
