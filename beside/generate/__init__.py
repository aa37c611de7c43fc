"""Makers of records and stores, seeded and reproducible."""
