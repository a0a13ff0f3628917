// Stand-in for cst/display.rs, which only prints trees.
