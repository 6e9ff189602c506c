"""Relays between a controller and an engine. No other package imports them."""
