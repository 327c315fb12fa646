"""The suite that tests the built daemon from outside."""
