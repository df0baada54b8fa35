"""Tests of the server side of the screen: no browser is wanted."""
