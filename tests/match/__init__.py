"""Tests of twogtp."""
