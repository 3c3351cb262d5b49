"""Comparisons by hand, which draw or take long; `tools/ks compare` lists them."""
