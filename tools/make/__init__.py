"""Makers of scripts, tables and pages; `tools/ks make` lists them."""
