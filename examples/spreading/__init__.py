"""The rooms of examples/spread: how scripts are read (script), the two ways to part a map (groups; grid, split and unite under masks), and
what runs the parts (engines)."""
