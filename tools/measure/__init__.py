"""What is measured, beside other programs or beside itself; `tools/ks measure` lists it."""
