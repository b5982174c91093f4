"""Tests of the companions. Values come from a full search, from the formats page or from reasoning."""
