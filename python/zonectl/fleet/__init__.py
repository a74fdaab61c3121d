"""Zones x servers: the configuration, the workers, and what is written of their comparisons."""
