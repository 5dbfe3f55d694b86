"""What tools/whatif does, a module for each purpose."""
# That of the program, which tests/gate/whatif compares.
VERSION = "0.2.0"
