"""Tests of the desk's tools."""
