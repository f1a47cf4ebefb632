"""Releases: what they are made of, their packages, and whether a package has the proved program."""
