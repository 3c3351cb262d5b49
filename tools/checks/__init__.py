"""What the gate runs behind `rt ci`; `tools/ks check` lists it."""
