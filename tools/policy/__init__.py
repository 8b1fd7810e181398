"""Policies side by side: a small simulator of frames and TLBs, a class for each policy, and the program's own numbers (docs/policies.md)."""
