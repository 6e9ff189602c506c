"""A plain reference of the controller, and engines that misbehave. See tests/README.md."""
